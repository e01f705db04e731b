/*
 * Plays of namesakes: one sends mail, is deleted while it waits and made again under the same name, once or several
 * times; who holds the mail moves it, reads it or is deleted in turn.
 */
#include "generate.h"

static unsigned telling_length(void)
{
    return chance(25) ? 0 : chance(30) ? 1 : chance(40) ? LONGEST_TEXT : below(LONGEST_TEXT + 1);
}

/* Where a word of that value stands already, with room behind it: a send from there saves an order; 0 if nowhere. */
static unsigned old_text(unsigned length)
{
    unsigned from = below(7000), lr = get_lr(world, world[RUNNING_PAGE]);

    for (unsigned i = 0; i < 7000; i++) {
        unsigned address = TABLES_END + (from + i) % 7000;

        if (world[address] == length && (address + length < lr || address >= lr + LONGEST_PUT))
            return address;
    }
    return 0;
}

/* Some letter of those that fit; NULL if none does. */
typedef bool fitting(const struct letter *x);
static const struct letter *some_letter(const struct letter *letters, unsigned count, fitting *fits)
{
    for (unsigned i = 0, from = below(count); i < count; i++)
        if (fits(&letters[(from + i) % count]))
            return &letters[(from + i) % count];
    return NULL;
}

static bool is_of_namesake(const struct letter *x)
{
    return is_marked(x->length) && x->name == runner_name() && x->holder != world[RUNNING_PAGE];
}

/*
 * Holders: one that has mail of an earlier one of the sender's name; the next to run, who can move what it gets; the
 * sender itself; anybody.
 */
static unsigned some_holder(const struct look *l)
{
    struct letter letters[PAGES];
    const struct letter *x = some_letter(letters, all_letters(world, letters), is_of_namesake);
    unsigned next = next_name(l), choice = below(100);

    if (choice < 50 && x != NULL)
        return name_of(world, x->holder);
    if (choice < 65 && next != 0)
        return next;
    return choice < 78 ? runner_of(l)->name : existing_name(l);
}

/* The runner sends several messages from texts that stand somewhere, in one put. */
static void send_batch(const struct look *l, unsigned count)
{
    struct plan batch[4];

    for (unsigned i = 0; i < count; i++) {
        batch[i] = plan_for(4, some_holder(l));
        batch[i].g.flag = from_to(1, 7);
        batch[i].g.address = old_text(telling_length());
        if (batch[i].g.address == 0)
            batch[i].g.address = old_text(0);
        if (batch[i].g.address == 0)
            return;
    }
    issue_batch(batch, count);
}

/* The runner sends some mail, as far as pages go, and may move what it sent to itself. */
static void send_mail(void)
{
    struct look l = look_at(world);
    unsigned left = from_to(1, 4), name = runner_of(&l)->name;

    if (left > l.free)
        left = l.free;
    if (!built_in(4) || left == 0)
        return;
    if (chance(60)) {
        send_batch(&l, left);
    } else {
        for (; left > 0 && runner_name() == name; left--) {
            unsigned to = some_holder(&l), flag = from_to(1, 7);

            do_send(to, flag, telling_length());
        }
    }
    if (runner_name() == name && first_match(world, at(world[RUNNING_PAGE], Q1), name * 16) != 0 && chance(60))
        do_message(chance(60) ? 5 : 7, name, 0);
}

/* The runner moves mail under that name to its Q2. */
static void take_in(unsigned name)
{
    unsigned page = world[RUNNING_PAGE], message = first_match(world, at(page, Q1), name * 16);
    unsigned code = chance(50) ? 5 : 7, wanted = chance(50) ? name : 0;

    if (message != 0)
        do_message(code, wanted, chance(50) ? 0 : world[at(message, FROM)] % 16u);
}

/* The name is made again, as high as the runner, and started; by hand it can be made higher between. */
static void make_again(unsigned name)
{
    struct look l = look_at(world);
    struct plan batch[2] = { plan_for(11, name), plan_for(8, name) };

    if (l.free == 0 || find_one(&l, name) != NULL || !built_in(11) || !built_in(8))
        return;
    if (has_equals(&l))
        call_higher();
    batch[0].g.priority = priority_of(world, world[RUNNING_PAGE]);
    batch[0].g.w = below(16);
    batch[0].g.address = from_to(TABLES_END, 7400);
    if (!may_break() || chance(40)) {
        issue_batch(batch, 2);
        return;
    }
    issue_batch(batch, 1);
    if (find_processor(world, name) != 0)
        promote(find_processor(world, name), 15);
    do_name(8, name);
}

/* A life: the runner sends, stops itself, and who runs then deletes it; false if it came to nothing. */
static bool live_and_die(unsigned name)
{
    send_mail();
    if (runner_name() != name || !others_ready())
        return false;
    do_name(9, name);
    if (is_idle() || runner_name() == name)
        return false;
    if (chance(50))
        take_in(name);
    if (is_idle() || runner_name() == name)
        return false;
    bury(name);
    return find_processor(world, name) == 0;
}

/* One that was made again comes to run. */
static bool begin_life(unsigned name)
{
    struct look l = look_at(world);

    if (runner_name() == name)
        return true;
    return has_equals(&l) && chance(70) ? clear_the_way(name) : let_run(name);
}

/* One name lives and dies up to four times; then its mail is read, or who has it is deleted. */
void scene_lives(void)
{
    unsigned name = runner_name();

    for (unsigned left = from_to(1, 4); left > 0 && others_ready() && world[FREE_LIST] != 0 && !full(); left--) {
        if (!live_and_die(name) || is_idle())
            break;
        if (left > 1 || chance(60))
            make_again(name);
        if (is_idle() || ((left > 1 || chance(70)) && !begin_life(name)))
            break;
    }
    if (!is_idle() && runner_name() == name && chance(80))
        send_mail();
    if (!is_idle() && chance(40))
        scene_keepsakes();
    else if (!is_idle())
        scene_estate();
}

static bool is_nobodys(const struct letter *x)
{
    return find_processor(world, x->name) == 0;
}

static bool is_nobodys_notice(const struct letter *x)
{
    return x->length == NOTICE && is_nobodys(x);
}

static bool is_marked_elsewhere(const struct letter *x)
{
    return is_marked(x->length) && x->holder != world[RUNNING_PAGE];
}

/* Unmarked mail of nobody's name: calls alone never leave any. */
static bool is_unowned(const struct letter *x)
{
    return x->length < MARKED && is_nobodys(x);
}

static bool is_unowned_elsewhere(const struct letter *x)
{
    return is_unowned(x) && x->holder != world[RUNNING_PAGE];
}

/* Marked mail beside unmarked mail of the same name, which somebody has. */
static bool is_mixed_elsewhere(const struct letter *x)
{
    struct letter letters[PAGES];
    unsigned count = all_letters(world, letters);

    for (unsigned i = 0; i < count && is_marked_elsewhere(x) && !is_nobodys(x); i++)
        if (letters[i].holder == x->holder && letters[i].name == x->name && letters[i].length < MARKED)
            return true;
    return false;
}

/*
 * A name that stands on waiting mail or notices and that nobody has: it is made again, and often deleted at once or
 * after it sent something.
 */
void scene_heirs(void)
{
    struct letter letters[PAGES];
    unsigned count = all_letters(world, letters), name;
    const struct letter *x = may_break() && chance(70) ? some_letter(letters, count, is_unowned) : NULL;
    struct plan batch[3];

    if (x == NULL && chance(40))
        x = some_letter(letters, count, is_nobodys_notice);
    if (x == NULL)
        x = some_letter(letters, count, is_nobodys);
    if (is_idle() || x == NULL || world[FREE_LIST] == 0 || !built_in(11) || !built_in(12))
        return;
    name = x->name;
    if (chance(40)) {
        make_again(name);
        if (!is_idle() && let_run(name))
            live_and_die(name);
        return;
    }
    batch[0] = plan_for(11, name);
    batch[0].g.priority = from_to(1, priority_of(world, world[RUNNING_PAGE]));
    batch[0].g.address = from_to(TABLES_END, 7400);
    batch[1] = plan_for(12, name);
    batch[2] = batch[0];
    issue_batch(batch, from_to(1, 3));
}

/* One that holds mail whose sender is gone is deleted, with a namesake of the sender alive or not. */
void scene_estate(void)
{
    struct letter letters[PAGES];
    unsigned count = all_letters(world, letters);
    const struct letter *x = chance(70) ? some_letter(letters, count, is_unowned_elsewhere) : NULL;

    if (x == NULL && chance(80))
        x = some_letter(letters, count, is_mixed_elsewhere);
    if (x == NULL)
        x = some_letter(letters, count, is_marked_elsewhere);
    if (is_idle() || x == NULL)
        return;
    if (find_processor(world, x->name) == 0 && world[FREE_LIST] != 0 && chance(is_marked(x->length) ? 60 : 20))
        do_create(x->name, from_to(1, priority_of(world, world[RUNNING_PAGE])));
    if (!is_idle())
        bury(name_of(world, x->holder));
}

/* So many unprotected words that a longer target would reach protected ones. */
static unsigned tight_place(unsigned count)
{
    unsigned end = chance(60) ? at(FIRST_PAGE, 0) : TABLES;

    return end - count - (chance(50) ? 0 : below(MARKED));
}

/* The runner's marked mail comes to its Q2 and is read, to places that just have room for it, or one word too few. */
static void read_one(void)
{
    struct queue q = queue_read(world, at(world[RUNNING_PAGE], Q2), LINK);
    struct plan p = plan_for(6, 0);
    unsigned from, length, message = 0;

    for (unsigned i = 0; i < q.count && message == 0; i++)
        if (is_marked(world[at(q.page[i], LENGTH)]))
            message = q.page[i];
    if (message == 0)
        return;
    from = world[at(message, FROM)];
    p.g.field = chance(60) ? from / 16 : 0;
    p.g.flag = chance(60) ? from % 16 : 0;
    length = text_length(world, first_match(world, q.header, p.g.field * 16 + p.g.flag));
    p.g.address = chance(80) ? tight_place(3 + length) : place(3 + length);
    if (others_ready() && chance(25))
        p.g.address = chance(50) ? place_protected(3 + length) : at(FIRST_PAGE, 0) - 2 - length;
    do_plan(&p);
}

static bool is_marked_of_runner(const struct letter *x)
{
    return is_marked(x->length) && x->holder == world[RUNNING_PAGE];
}

/* One that holds marked mail and doesn't run is started and let run. */
static void call_holder(const struct letter *x)
{
    unsigned name = name_of(world, x->holder);

    if ((world[at(x->holder, STATE)] & WAITING) != 0)
        return;
    if ((world[at(x->holder, STATE)] & STOPPED) != 0)
        do_name(8, name);
    if (!is_idle() && others_ready())
        let_run(name);
}

/* Marked mail is moved and read. */
void scene_keepsakes(void)
{
    struct letter letters[PAGES];
    unsigned count = all_letters(world, letters);
    const struct letter *x = some_letter(letters, count, is_marked_elsewhere);

    if (is_idle())
        return;
    if (some_letter(letters, count, is_marked_of_runner) == NULL && x != NULL)
        call_holder(x);
    for (unsigned left = from_to(1, 5); left > 0 && !is_idle() && !full(); left--) {
        count = all_letters(world, letters);
        x = some_letter(letters, count, is_marked_of_runner);
        if (x == NULL)
            return;
        if (x->queue == Q1)
            take_in(x->name);
        else
            read_one();
    }
}
