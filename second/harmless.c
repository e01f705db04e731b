/* Words set by `break` that are not judged, or that stay well-formed: they must be carried along rightly. */
#include <string.h>

#include "breakers.h"

static void scatter(unsigned address, unsigned count)
{
    uint8_t bytes[LONGEST_PUT];

    for (unsigned i = 0; i < count; i++)
        bytes[i] = (uint8_t)below(256);
    order_break(address, bytes, count);
}

/* Page 9 nearly full, full, or empty again. */
static void fill_page_9(void)
{
    uint8_t table[PAGE_WORDS] = { 0 };
    unsigned unused = chance(30) ? 1 : from_to(28, 32);

    table[0] = (uint8_t)unused;
    for (unsigned word = 1; word < unused; word++) {
        unsigned name = from_to(1, 15);

        table[word] = (uint8_t)(name * 16 + (chance(20) ? FAULTS : from_to(1, FAULTS)));
    }
    order_break(FAULT_TABLE, table, PAGE_WORDS);
}

/* Any word 2 that a good message can have, often the first or last of its kind. */
unsigned good_length(void)
{
    unsigned length = chance(25) ? 0 : chance(25) ? LONGEST_TEXT : chance(20) ? 1 : below(LONGEST_TEXT + 1);

    return chance(45) ? MARKED + length : chance(80) ? length : NOTICE;
}

/* What a message has in words 1 and 2, if the memory stays well-formed with it: who waits for a message may match. */
static void retouch(unsigned page, unsigned from, unsigned length)
{
    uint8_t copy[WORDS], words[2] = { (uint8_t)from, (uint8_t)length };

    memcpy(copy, world, sizeof copy);
    memcpy(copy + at(page, FROM), words, sizeof words);
    if (well_formed(copy))
        order_break(at(page, FROM), words, 2);
}

/* A message that waits gets a mark, loses it, or has another sender, often a name that nobody has. */
static void retouch_some(const struct look *l)
{
    struct letter letters[PAGES];
    unsigned count = all_letters(world, letters);
    const struct letter *x = &letters[below(count)];
    unsigned sender, flag;

    if (count == 0)
        return;
    sender = chance(40) ? x->name : chance(60) ? absent_name(l) : existing_name(l);
    flag = chance(70) ? x->flag : from_to(1, 7);
    retouch(x->page, sender * 16 + flag, chance(25) && x->length < MARKED ? x->length + MARKED : good_length());
}

/* Mail that calls alone lead to slowly or never: marked beside unmarked of one name, and unmarked of nobody's name. */
void scene_forge(void)
{
    struct look l = look_at(world);
    unsigned name = l.count > 0 && chance(70) ? absent_name(&l) : from_to(1, HIGHEST_NAME);

    if (l.count == 0 || name == 0)
        return;
    for (unsigned left = from_to(1, 4); left > 0 && !full(); left--) {
        const struct one *one = &l.one[below(l.count)];
        unsigned header = at(one->page, one->wait == WAIT_MESSAGE || chance(50) ? Q2 : Q1);
        unsigned sender = chance(80) ? name : existing_name(&l), flag = from_to(1, 7);

        if (world[FREE_LIST] != 0 && chance(70))
            put_message(header, sender * 16 + flag, good_length());
        else
            retouch_some(&l);
    }
    if (chance(40))
        order_judge();
    if (is_idle())
        return;
    switch (below(6)) {
    case 0: case 1: scene_heirs(); break;
    case 2: scene_keepsakes(); break;
    default: scene_estate(); break;
    }
}

/* All codes built in again, with addresses that nobody reads. */
static void restore_codes(void)
{
    uint8_t table[PAGE_WORDS];

    for (unsigned code = 0; code < CODES; code++) {
        table[2 * code] = (uint8_t)(code == 15 ? 0 : 32);
        table[2 * code + 1] = 0;
        if (chance(30)) {
            table[2 * code] = (uint8_t)(table[2 * code] + below(32));
            table[2 * code + 1] = (uint8_t)below(256);
        }
    }
    order_break(CODE_TABLE, table, PAGE_WORDS);
}

/* The clock just before an end, or another line and divider. */
static void set_clock(void)
{
    unsigned c1 = from_to(8, 9), c2 = from_to(58, 59), c3 = from_to(58, 59);
    uint8_t divider = (uint8_t)(chance(70) ? from_to(1, 3) : from_to(1, 255)), line = (uint8_t)from_to(16, 47);
    uint8_t counters[4] = { (uint8_t)below(divider), (uint8_t)c1, (uint8_t)c2, (uint8_t)c3 };

    order_break(C0, counters, 4);
    order_break(DIVIDER, &divider, 1);
    if (chance(40))
        order_break(LINE, &line, 1);
}

/* Contents of a page: of a processor its registers and kept words, of others all behind the link. */
static void scatter_contents(const struct look *l)
{
    unsigned page = from_to(FIRST_PAGE, LAST_PAGE);
    bool is_free = false;
    struct queue free_list = queue_read(world, FREE_LIST, LINK);

    for (unsigned i = 0; i < free_list.count; i++)
        is_free = is_free || free_list.page[i] == page;
    if (is_free) {
        scatter(at(page, 1), 31);
        return;
    }
    page = l->one[below(l->count)].page;
    if (chance(30))
        scatter(at(page, REGISTER_A), 4);
    else
        scatter(at(page, SAVED), 19);
}

static void scatter_small(const struct look *l)
{
    const struct one *one = &l->one[below(l->count)];
    uint8_t reason = (uint8_t)(chance(60) ? from_to(1, 2) : 255);

    switch (below(5)) {
    case 0: scatter(TABLES, 3); break;
    case 1: scatter(252, 4); break;
    case 2: scatter(WORDS, 8); break;
    case 3:
        if (one->wait == WAIT_NONE)
            scatter(at(one->page, LINK), 1);
        break;
    default:
        if (one->wait == WAIT_INTERRUPT)
            order_break(at(one->page, REASON), &reason, 1);
        break;
    }
}

void scene_harmless_break(void)
{
    struct look l = look_at(world);

    if (l.count == 0)
        return;
    switch (below(9)) {
    case 0: fill_page_9(); break;
    case 8: retouch_some(&l); break;
    case 1: if (near_end() || chance(20)) restore_codes(); break;
    case 2: case 3: set_clock(); break;
    case 4: case 5: scatter_contents(&l); break;
    default: scatter_small(&l); break;
    }
    if (chance(30))
        order_judge();
}

/* Word 0 of one that doesn't wait is not judged; if it is then deleted, its page may be granted with it. */
void scene_litter(void)
{
    struct look l = look_at(world);

    for (unsigned i = 0; i < l.count && !is_idle(); i++) {
        const struct one *one = &l.one[i];

        if (i == l.running || one->wait != WAIT_NONE || chance(50))
            continue;
        scatter(at(one->page, LINK), 1);
        do_name(9, one->name);
        do_name(12, one->name);
        break;
    }
}

/* No processor at all and every page free: nothing in the list of the well-formed forbids it. */
void scene_nobody(void)
{
    static const uint8_t zeros[LONGEST_PUT];
    uint8_t lists[6] = { FIRST_PAGE, PAGES, 0, 0, 0, 0 };

    if (!near_end())
        return;
    for (unsigned k = 0; k < 3; k++)
        order_break(TABLES + k * LONGEST_PUT, zeros, LONGEST_PUT);
    order_break(TABLES + 96, zeros, 15);
    order_break(FREE_LIST, lists, 6);
    order_break(GRANTS, zeros, LONGEST_PUT);
    for (unsigned page = FIRST_PAGE; page <= LAST_PAGE; page++) {
        uint8_t next = (uint8_t)(page < LAST_PAGE ? page + 1 : 0);

        order_break(at(page, LINK), &next, 1);
    }
    order_judge();
    order_step();
    order_interrupt(world[LINE], 0);
    any_burst();
    order_changes();
}

static unsigned some_divider(void)
{
    return chance(80) ? from_to(1, 4) : chance(25) ? 255 : from_to(1, 255);
}

/*
 * A fresh start with some line, often the first or the last; or one from settings.  After fresh nobody comes above
 * priority 1 but by hand, so most scripts go on from settings.
 */
static void start_afresh(unsigned divider)
{
    unsigned choice = below(100);
    bool by_hand = may_break() || kind == KIND_CLOCK;

    if (kind != KIND_CLOCK && choice < 20) {
        start_from_settings();
    } else if (choice < (by_hand ? 60 : 88)) {
        start_with_crew(divider);
    } else {
        order_fresh(chance(20) ? 16 : chance(20) ? 47 : from_to(16, 47), divider);
        if (by_hand && chance(75))
            raise_first();
    }
}

/*
 * Nobody is ready and nothing from outside helps: where memories may be broken, one that is stopped
 * is started by hand, else a fresh start.
 */
void unstick(void)
{
    struct look l = look_at(world);

    for (unsigned tries = 0; may_break() && l.count > 0 && tries < 30; tries++) {
        const struct one *one = &l.one[below(l.count)];
        uint8_t state = world[at(one->page, STATE)] & 127;
        uint8_t running[2] = { (uint8_t)one->page, world[at(one->page, WHO)] };

        if (!one->stopped || one->wait != WAIT_NONE)
            continue;
        order_break(at(one->page, STATE), &state, 1);
        order_break(RUNNING_PAGE, running, 2);
        return;
    }
    start_afresh(some_divider());
    maybe_changes(50);
}

/* Lengths that are not 8,192, calls with them, and back. */
void scene_length(void)
{
    static const uint16_t lengths[] = { 0, 1, 8191, 8193, 8200 };
    struct registers r = { 0, 0, 0, 0, 0, 300, 0 };

    order_length(lengths[below(5)]);
    for (unsigned left = from_to(1, 4); left > 0; left--) {
        unsigned choice = below(10), low = chance(50) ? 0 : below(3);

        switch (choice) {
        case 0: order_step(); break;
        case 1: order_interrupt(below(60), low); break;
        case 2: order_registers(); break;
        case 3: order_set(&r); break;
        case 4: order_fresh(from_to(15, 47), low); break;
        case 5: order_fresh(chance(50) ? 15 : 48, low); break;
        case 6: case 7: any_burst(); break;
        case 8: any_settings(); break;
        default: order_judge(); break;
        }
    }
    if (chance(20))
        scene_writes();
    if (chance(20))
        order_length(chance(50) ? 8201 : 65535);
    maybe_changes(50);
    order_length(WORDS);
}

/* Before the first fresh start all words are zero, which is not well-formed. */
void opening(void)
{
    if (chance(30))
        scene_calls();
    if (chance(15))
        any_burst();
    if (chance(10))
        any_settings();
    if (chance(25))
        scene_length();
    start_afresh(kind == KIND_CLOCK ? from_to(1, 2) : some_divider());
    maybe_changes(70);
}
