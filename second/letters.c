/* Changes of mail: what a queue says, in which order, and words in its pages that say nothing. */
#include "pairs.h"

typedef bool fitting(unsigned page);

static unsigned word_2(unsigned page)
{
    return world[at(page, LENGTH)];
}

static bool any_letter(unsigned page)
{
    return page != 0;
}

static bool has_text(unsigned page)
{
    return text_length(world, page) > 0;
}

static bool is_notice(unsigned page)
{
    return word_2(page) == NOTICE;
}

static bool is_mail(unsigned page)
{
    return !is_notice(page);
}

static bool is_empty(unsigned page)
{
    return is_mail(page) && !has_text(page);
}

static bool has_room(unsigned page)
{
    return is_mail(page) && text_length(world, page) < LONGEST_TEXT;
}

/* Some message of the subject that is fitting, of Q1 or Q2; 0 if there is none. */
static unsigned some_letter(const struct look *l, fitting *fits)
{
    const struct one *one = subject(l);
    struct queue q1 = queue_read(world, at(one->page, Q1), LINK), q2 = queue_read(world, at(one->page, Q2), LINK);
    unsigned count = q1.count + q2.count, from = below(count);

    for (unsigned i = 0; i < count; i++) {
        unsigned n = (from + i) % count, page = n < q1.count ? q1.page[n] : q2.page[n - q1.count];

        if (fits(page))
            return page;
    }
    return 0;
}

/* Another value than it has. */
static void alter(unsigned address)
{
    poke(address, world[address] + from_to(1, 255));
}

/* Often the first or the last word. */
static bool change_text(const struct look *l)
{
    unsigned page = some_letter(l, has_text), length;

    if (page == 0)
        return false;
    length = text_length(world, page);
    alter(at(page, TEXT + (chance(40) ? length - 1 : chance(30) ? 0 : below(length))));
    return true;
}

static bool change_flag(const struct look *l)
{
    unsigned page = some_letter(l, any_letter), from = world[at(page, FROM)];

    if (page == 0)
        return false;
    poke(at(page, FROM), from / 16 * 16 + 1 + (from % 16 - 1 + from_to(1, 6)) % 7);
    return true;
}

static bool change_sender(const struct look *l)
{
    unsigned page = some_letter(l, any_letter), from = world[at(page, FROM)];

    if (page == 0)
        return false;
    poke(at(page, FROM), (1 + (from / 16 - 1 + from_to(1, 14)) % 15) * 16 + from % 16);
    return true;
}

/* A mark stays. */
static bool change_length(const struct look *l)
{
    unsigned page = some_letter(l, is_mail), length, other;

    if (page == 0)
        return false;
    length = text_length(world, page);
    other = (length + (chance(50) ? 1 : from_to(1, LONGEST_TEXT))) % (LONGEST_TEXT + 1);
    poke(at(page, LENGTH), word_2(page) - length + other);
    return true;
}

static bool change_mark(const struct look *l)
{
    unsigned page = some_letter(l, is_mail);

    if (page == 0)
        return false;
    poke(at(page, LENGTH), word_2(page) ^ MARKED);
    return true;
}

/* Mail, marked or not, becomes a notice with the same words behind. */
static bool change_to_notice(const struct look *l)
{
    unsigned page = some_letter(l, chance(50) ? is_empty : is_mail);

    if (page == 0)
        return false;
    poke(at(page, LENGTH), NOTICE);
    return true;
}

static unsigned some_header(const struct look *l)
{
    unsigned page = subject(l)->page;

    return at(page, chance(50) ? Q1 : Q2);
}

/* Two messages change places. */
static bool change_order(const struct look *l)
{
    struct queue q = queue_read(world, some_header(l), LINK);
    unsigned one = below(q.count), other = below(q.count);
    uint8_t page;

    if (one == other)
        return false;
    page = q.page[one];
    q.page[one] = q.page[other];
    q.page[other] = page;
    poke(q.header, q.page[0]);
    for (unsigned i = 0; i < q.count; i++)
        poke(at(q.page[i], LINK), i + 1 < q.count ? q.page[i + 1] : 0u);
    return true;
}

/* As make_message does it, and then to the end. */
static bool add_last(const struct look *l)
{
    unsigned header = some_header(l), page = make_message(header);

    if (page == 0)
        return false;
    queue_leave(world, header, LINK, page);
    queue_join(world, header, LINK, page);
    return true;
}

static bool add_first(const struct look *l)
{
    unsigned header = some_header(l);

    return world[header] != 0 && make_message(header) != 0;
}

static void push(unsigned header, unsigned page)
{
    poke(at(page, LINK), world[header]);
    poke(header, page);
}

/* The last of Q1 becomes the first of Q2, or the other way: read one behind the other, they say the same. */
static bool change_border(const struct look *l)
{
    unsigned page = subject(l)->page;
    struct queue q1 = queue_read(world, at(page, Q1), LINK), q2 = queue_read(world, at(page, Q2), LINK);

    if (q1.count + q2.count == 0)
        return false;
    if (q1.count > 0 && (q2.count == 0 || chance(50))) {
        queue_leave(world, q1.header, LINK, q1.page[q1.count - 1]);
        push(q2.header, q1.page[q1.count - 1]);
    } else {
        queue_leave(world, q2.header, LINK, q2.page[0]);
        queue_join(world, q1.header, LINK, q2.page[0]);
    }
    return true;
}

/* To the end of Q2, as WNM does it. */
static bool move_to_q2(const struct look *l)
{
    unsigned page = subject(l)->page, message = world[at(page, Q1)];

    if (message == 0)
        return false;
    queue_leave(world, at(page, Q1), LINK, message);
    queue_join(world, at(page, Q2), LINK, message);
    return true;
}

static bool move_to_another(const struct look *l)
{
    unsigned header = some_header(l), page = world[header], other = at(some_one(l)->page, Q2);

    if (page == 0 || header == other)
        return false;
    queue_leave(world, header, LINK, page);
    queue_join(world, other, LINK, page);
    return true;
}

/* Often the first one behind the text. */
static bool change_behind_text(const struct look *l)
{
    unsigned page = some_letter(l, has_room), length;

    if (page == 0)
        return false;
    length = text_length(world, page);
    alter(at(page, TEXT + (chance(50) ? length : from_to(length, LONGEST_TEXT - 1))));
    return true;
}

static bool change_text_of_notice(const struct look *l)
{
    unsigned page = some_letter(l, is_notice);

    if (page == 0)
        return false;
    for (unsigned left = from_to(1, 3); left > 0; left--)
        alter(at(page, TEXT + (chance(50) ? 0 : below(LONGEST_TEXT))));
    return true;
}

const struct change letter_changes[] = {
    { "a word of a text", change_text, false },
    { "the flag of a message", change_flag, false },
    { "the sender of a message", change_sender, false },
    { "the length of a message", change_length, false },
    { "the mark of a message", change_mark, false },
    { "a notice for mail", change_to_notice, false },
    { "the order of a queue of messages", change_order, false },
    { "one more message, the last", add_last, false },
    { "one more message, before others", add_first, false },
    { "the last of Q1 first in Q2, or back", change_border, false },
    { "a message at the end of Q2 and not in Q1", move_to_q2, false },
    { "a message in another's queue", move_to_another, false },
    { "words behind a text", change_behind_text, true },
    { "the stale text of a notice", change_text_of_notice, true }
};
const unsigned letter_change_count = sizeof letter_changes / sizeof letter_changes[0];
