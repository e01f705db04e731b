/* Ways to break the records, the tables of codes and faults, the counters and the running entry. */
#include "breakers.h"

/* Word 7 of one, and word 25 with it if it runs, mostly. */
static void rename_one(const struct one *one, unsigned priority, unsigned name)
{
    poke(at(one->page, WHO), priority * 16 + name);
    if (one->page == world[RUNNING_PAGE] && chance(70))
        poke(RUNNING_WHO, priority * 16 + name);
}

static bool spoil_name_0(const struct look *l)
{
    const struct one *one = some_one(l);

    rename_one(one, one->priority, 0);
    return true;
}

/* The name of another, who may be before or behind it; or a name that nobody had. */
static bool spoil_name(const struct look *l)
{
    const struct one *one = some_one(l);

    rename_one(one, one->priority, chance(85) ? some_one(l)->name : from_to(1, HIGHEST_NAME));
    return true;
}

static bool spoil_priority(const struct look *l)
{
    const struct one *one = some_one(l);

    rename_one(one, chance(70) ? 0 : below(16), one->name);
    return true;
}

static bool spoil_zeros(const struct look *l)
{
    unsigned page = some_one(l)->page;

    poke(at(page, STATE), world[at(page, STATE)] | (chance(80) ? 16u << below(2) : 48u));
    return true;
}

/*
 * The first free page granted by hand: well-formed if the name exists and doesn't wait for a page,
 * and then the page keeps the link it had; else "grants only to existing names".
 */
static bool spoil_free_grant(const struct look *l)
{
    unsigned page = world[FREE_LIST];
    unsigned word = chance(20) ? existing_name(l) : chance(70) ? absent_name(l) : below(PAGE_WORDS);

    if (page == 0 || world[GRANTS + word] != 0)
        return false;
    poke(FREE_LIST, world[at(page, LINK)]);
    poke(FREE_SEMAPHORE, world[FREE_SEMAPHORE] - 1u);
    poke(GRANTS + word, page);
    return true;
}

/* One that holds a grant gets another name. */
static bool spoil_name_of_granted(const struct look *l)
{
    const struct one *one = some_granted(l);

    if (one == NULL)
        return false;
    rename_one(one, one->priority, chance(70) ? absent_name(l) : below(16));
    return true;
}

/* Words 0 and 16-31 of page 10 are no grants, even if they hold a control page. */
static bool spoil_page_10(const struct look *l)
{
    unsigned word = chance(40) ? 0 : chance(25) ? 16 : chance(65) ? 31 : from_to(16, 31);

    (void)l;
    poke(GRANTS + word, chance(60) ? some_page() : from_to(1, 255));
    return true;
}

static bool spoil_sender(const struct look *l)
{
    unsigned page = some_message(l);

    if (page == 0)
        return false;
    poke(at(page, FROM), world[at(page, FROM)] % 16u);
    return true;
}

static bool spoil_flag(const struct look *l)
{
    unsigned page = some_message(l), flag = chance(30) ? 0 : chance(65) ? 8 : from_to(7, 15);

    if (page == 0)
        return false;
    poke(at(page, FROM), world[at(page, FROM)] / 16u * 16u + flag);
    return true;
}

static bool spoil_length(const struct look *l)
{
    static const uint8_t lengths[] = { 29, 30, 30, 30, 31, 63, 63, 127, 128, 129, 200, 255 };
    unsigned page = some_message(l);

    if (page == 0)
        return false;
    poke(at(page, LENGTH), chance(20) ? from_to(30, 255) : lengths[below(sizeof lengths)]);
    return true;
}

/* Word 2 around 64-93. */
static bool spoil_mark(const struct look *l)
{
    static const uint8_t lengths[] = { 63, 64, 93, 94, 94, 94, 94, 94, 95, 127 };
    unsigned page = some_message(l);

    if (page == 0)
        return false;
    poke(at(page, LENGTH), lengths[below(sizeof lengths)]);
    return true;
}

/* A notice that is marked, and mail that is marked once more. */
static bool spoil_marked_again(const struct look *l)
{
    static const uint8_t lengths[] = { 192, 192, 129, 157, 193, 221 };
    unsigned page = some_message(l), length = page == 0 ? 0 : world[at(page, LENGTH)];

    if (page == 0)
        return false;
    poke(at(page, LENGTH), length >= MARKED && chance(60) ? length + MARKED : lengths[below(sizeof lengths)]);
    return true;
}

static bool spoil_kind(const struct look *l)
{
    unsigned code = chance(50) ? below(CODES) : from_to(2, 14);
    unsigned code_is = chance(40) ? 3 : chance(70) ? from_to(4, 7) : below(3);

    (void)l;
    poke(CODE_TABLE + 2 * code, code_is * 32 + (chance(50) ? 0 : below(32)));
    return true;
}

/* Codes 0 and 1 not built in, 15 built in. */
static bool spoil_lasting_code(const struct look *l)
{
    unsigned code = chance(33) ? 15 : below(2);
    unsigned code_is = code == 15 ? 1 : chance(50) ? 0 : 2;

    (void)l;
    poke(CODE_TABLE + 2 * code, code_is * 32 + (chance(50) ? 0 : below(32)));
    return true;
}

static bool spoil_page_9_range(const struct look *l)
{
    (void)l;
    poke(FAULT_TABLE, chance(35) ? 0 : chance(65) ? 33 : from_to(33, 255));
    return true;
}

/* Word 0 of page 9 moves: an entry is unused, or an unused word an entry. */
static bool spoil_page_9_first(const struct look *l)
{
    unsigned first = world[FAULT_TABLE];

    (void)l;
    poke(FAULT_TABLE, chance(40) ? first - 1 : chance(60) ? first + 1 : from_to(1, FAULT_TABLE_FULL));
    return true;
}

static bool spoil_entry(const struct look *l)
{
    static const uint8_t faults[] = { 0, 13, 13, 14, 14, 14, 14, 15 };
    unsigned first = world[FAULT_TABLE], name = chance(20) ? 0 : from_to(1, 15), fault = faults[below(sizeof faults)];

    (void)l;
    if (first < 2 || first > FAULT_TABLE_FULL)
        return false;
    poke(FAULT_TABLE + from_to(1, first - 1), name * 16 + fault);
    return true;
}

/* One more entry, with a fault behind the last that there is. */
static bool spoil_fault(const struct look *l)
{
    unsigned first = world[FAULT_TABLE], name = from_to(1, HIGHEST_NAME), fault = chance(55) ? FAULTS + 1 : 15;

    (void)l;
    if (first == 0 || first >= FAULT_TABLE_FULL)
        return false;
    poke(FAULT_TABLE + first, name * 16 + fault);
    poke(FAULT_TABLE, first + 1);
    return true;
}

static bool spoil_unused_entry(const struct look *l)
{
    unsigned first = world[FAULT_TABLE], word = chance(30) ? 31 : from_to(first > 0 ? first : 1, 31);

    (void)l;
    if (first >= FAULT_TABLE_FULL)
        return false;
    poke(FAULT_TABLE + word, chance(50) ? 17 : from_to(1, 255));
    return true;
}

static bool spoil_line(const struct look *l)
{
    (void)l;
    poke(LINE, chance(60) ? (chance(50) ? 15 : 48) : chance(50) ? below(256) : chance(50) ? 16 : 47);
    return true;
}

static bool spoil_c0(const struct look *l)
{
    (void)l;
    poke(C0, chance(70) ? world[DIVIDER] - (chance(25) ? 1u : 0u) : below(256));
    return true;
}

/* C1, C2 or C3 at its end, at times just before it. */
static bool spoil_counter(const struct look *l)
{
    static const uint8_t ends[3] = { 10, 60, 60 };
    unsigned i = below(3);

    (void)l;
    poke(C1 + i, chance(80) ? ends[i] - (chance(20) ? 1u : 0u) : below(256));
    return true;
}

static bool spoil_divider(const struct look *l)
{
    (void)l;
    poke(DIVIDER, chance(50) ? 0 : world[C0] + from_to(0, 1));
    return true;
}

/* Idle though somebody is ready; or another runs, who is ready or not; or no processor's page. */
static bool spoil_running(const struct look *l)
{
    const struct one *other = some_one(l);
    uint8_t both[2] = { 0, 0 };

    switch (below(5)) {
    case 0: case 1: break;
    case 2:
        both[0] = (uint8_t)other->page;
        both[1] = world[at(other->page, WHO)];
        break;
    case 3:
        both[0] = (uint8_t)some_page();
        both[1] = world[RUNNING_WHO];
        break;
    default:
        both[0] = (uint8_t)(chance(50) ? some_false_number() : some_page());
        both[1] = world[at(both[0], WHO)];
        break;
    }
    order_break(RUNNING_PAGE, both, 2);
    return true;
}

/* Another that is ready becomes higher, or the runner is stopped by hand. */
static bool spoil_highest(const struct look *l)
{
    const struct one *other = some_one(l);

    if (chance(30) && !is_idle())
        poke(at(world[RUNNING_PAGE], STATE), world[at(world[RUNNING_PAGE], STATE)] | STOPPED);
    else
        poke(at(other->page, WHO), 15 * 16 + other->name);
    return true;
}

/* One that is stopped becomes ready by hand. */
static bool spoil_stopped(const struct look *l)
{
    const struct one *other = some_one(l);

    for (unsigned tries = 0; tries < 8 && !other->stopped; tries++)
        other = some_one(l);
    poke(at(other->page, STATE), world[at(other->page, STATE)] & 127u);
    return true;
}

static bool spoil_word_25(const struct look *l)
{
    (void)l;
    poke(RUNNING_WHO, some_value(world[RUNNING_WHO]));
    return true;
}

static bool spoil_word_26(const struct look *l)
{
    (void)l;
    poke(ALWAYS_ZERO, chance(50) ? 1u << below(8) : some_page());
    return true;
}

/* A page that is no processor's, made to look like the running one. */
static bool spoil_double(const struct look *l)
{
    unsigned page = chance(50) ? world[FREE_LIST] : some_message(l), runner = world[RUNNING_PAGE];

    if (page == 0 || runner == 0)
        return false;
    order_break(at(page, WHO), world + at(runner, WHO), 6);
    poke(RUNNING_PAGE, page);
    return true;
}

const struct way spoils[] = {
    { REFUSE_RECORDS, "a name 0", spoil_name_0, WAIT_NONE },
    { REFUSE_RECORDS, "another's name", spoil_name, WAIT_NONE },
    { REFUSE_RECORDS, "a priority", spoil_priority, WAIT_NONE },
    { REFUSE_RECORDS, "the zeros of word 12", spoil_zeros, WAIT_NONE },
    { REFUSE_RECORDS, "a free page granted by hand", spoil_free_grant, WAIT_NONE },
    { REFUSE_RECORDS, "another name for one with a grant", spoil_name_of_granted, WAIT_NONE },
    { REFUSE_RECORDS, "words 0 and 16-31 of page 10", spoil_page_10, WAIT_NONE },
    { REFUSE_RECORDS, "a sender 0", spoil_sender, WAIT_NONE },
    { REFUSE_RECORDS, "the flag of a message", spoil_flag, WAIT_NONE },
    { REFUSE_RECORDS, "the length of a message", spoil_length, WAIT_NONE },
    { REFUSE_RECORDS, "the mark of a message", spoil_mark, WAIT_NONE },
    { REFUSE_RECORDS, "a message marked too often", spoil_marked_again, WAIT_NONE },
    { REFUSE_TABLES, "the kind of a code", spoil_kind, WAIT_NONE },
    { REFUSE_TABLES, "codes 0, 1 and 15", spoil_lasting_code, WAIT_NONE },
    { REFUSE_TABLES, "page 9 out of range", spoil_page_9_range, WAIT_NONE },
    { REFUSE_TABLES, "word 0 of page 9 moved", spoil_page_9_first, WAIT_NONE },
    { REFUSE_TABLES, "an entry of page 9", spoil_entry, WAIT_NONE },
    { REFUSE_TABLES, "a fault 14 or 15 in page 9", spoil_fault, WAIT_NONE },
    { REFUSE_TABLES, "an unused entry of page 9", spoil_unused_entry, WAIT_NONE },
    { REFUSE_RUNNING, "the clock line", spoil_line, WAIT_NONE },
    { REFUSE_RUNNING, "C0", spoil_c0, WAIT_NONE },
    { REFUSE_RUNNING, "C1, C2 or C3", spoil_counter, WAIT_NONE },
    { REFUSE_RUNNING, "the divider", spoil_divider, WAIT_NONE },
    { REFUSE_RUNNING, "another runs, or nobody", spoil_running, WAIT_NONE },
    { REFUSE_RUNNING, "the runner is not the highest", spoil_highest, WAIT_NONE },
    { REFUSE_RUNNING, "a stopped one made ready", spoil_stopped, WAIT_NONE },
    { REFUSE_RUNNING, "word 25 of page 7", spoil_word_25, WAIT_NONE },
    { REFUSE_RUNNING, "word 25 of page 7 while nobody runs", spoil_word_25, NEEDS_IDLE },
    { REFUSE_RUNNING, "word 26 of page 7", spoil_word_26, WAIT_NONE },
    { REFUSE_RUNNING, "a double of the runner", spoil_double, WAIT_NONE }
};
const unsigned spoil_count = sizeof spoils / sizeof spoils[0];
