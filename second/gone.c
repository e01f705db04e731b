/* Counting what marks have reached: mail whose sender is gone, and names that were borne again. */
#include <string.h>

#include "generate.h"

static unsigned died[PAGES];           /* which deletion marked the message on that page; 0 if none did */
static unsigned deletions;
static unsigned lives_before[HIGHEST_NAME + 1];

static unsigned index_of_page(unsigned page)
{
    return page - FIRST_PAGE;
}

/* The name that was there before the call and is there no more, or 0. */
static unsigned deleted_name(const uint8_t *before, unsigned *page)
{
    struct look was = look_at(before);

    for (unsigned i = 0; i < was.count; i++)
        if (find_processor(world, was.one[i].name) == 0) {
            *page = was.one[i].page;
            return was.one[i].name;
        }
    return 0;
}

static void reach_marking(const struct letter *letters, unsigned count, unsigned name, unsigned page)
{
    unsigned marks = 0, flags = 0, holders = 0, last_holder = 0, in_queue[PAGES][2] = { { 0 } };
    bool several = false, own = false, own_q2 = false;

    for (unsigned i = 0; i < count; i++) {
        const struct letter *x = &letters[i];

        if (x->name != name || x->length >= MARKED)
            continue;
        marks++;
        mark(MARK_MARKED);
        mark(x->queue == Q1 ? MARK_MARKED_Q1 : MARK_MARKED_Q2);
        flags |= 1u << x->flag;
        holders += x->holder != last_holder;
        last_holder = x->holder;
        several = several || in_queue[index_of_page(x->holder)][x->queue == Q2]++ > 0;
        own = own || x->holder == page;
        own_q2 = own_q2 || (x->holder == page && x->queue == Q2);
        died[index_of_page(x->page)] = deletions;
    }
    if (marks > 0)
        mark(MARK_MARKS);
    if (holders > 1)
        mark(MARK_MARKS_HOLDERS);
    if (several)
        mark(MARK_MARKS_QUEUE);
    if ((flags & (flags - 1)) != 0)
        mark(MARK_MARKS_FLAGS);
    if (own)
        mark(MARK_MARKS_OWN);
    if (own_q2)
        mark(MARK_MARKS_OWN_Q2);
}

/* What stood under the deleted one's name and was left as it was. */
static void reach_left(const struct letter *letters, unsigned count, unsigned name)
{
    for (unsigned i = 0; i < count; i++) {
        if (letters[i].name != name)
            continue;
        if (is_marked(letters[i].length))
            mark(MARK_NOT_AGAIN);
        if (letters[i].length == NOTICE)
            mark(MARK_NOTICE_LEFT);
    }
}

/* What the deleted one held. */
static void reach_estate(const struct letter *letters, unsigned count, unsigned name, unsigned page)
{
    unsigned marked_of = 0, unmarked_of = 0;
    bool any = false, nobodys = false;

    for (unsigned i = 0; i < count; i++) {
        const struct letter *x = &letters[i];
        bool exists = find_processor(world, x->name) != 0;

        if (x->holder != page || x->length == NOTICE)
            continue;
        if (is_marked(x->length)) {
            any = true;
            mark(exists ? MARK_GIVEN_ALIVE : MARK_GIVEN_GONE);
            marked_of |= exists ? 1u << x->name : 0u;
        } else {
            nobodys = nobodys || (!exists && x->name != name);
            unmarked_of |= exists ? 1u << x->name : 0u;
        }
    }
    if (any)
        mark(MARK_DELETE_MARKED);
    if ((marked_of & unmarked_of) != 0)
        mark(MARK_DELETE_MIXED);
    if (nobodys)
        mark(MARK_DELETE_NOBODYS);
}

static void reach_deleted(const uint8_t *before)
{
    struct letter letters[PAGES];
    unsigned count = all_letters(before, letters), page = 0, name = deleted_name(before, &page);

    if (name == 0)
        return;
    deletions++;
    reach_marking(letters, count, name, page);
    reach_left(letters, count, name);
    reach_estate(letters, count, name, page);
}

/* Who was created under a name that stands on mail that waits. */
static void reach_created(const uint8_t *before)
{
    struct queue list = queue_read(world, PROCESSOR_LIST, LIST_LINK);
    unsigned name = list.count > 0 ? name_of(world, list.page[list.count - 1]) : 0;
    struct letter letters[PAGES];
    unsigned count = all_letters(before, letters);
    bool namesake = false, heir = false;

    for (unsigned i = 0; i < count && find_processor(before, name) == 0; i++) {
        namesake = namesake || (letters[i].name == name && is_marked(letters[i].length));
        heir = heir || (letters[i].name == name && letters[i].length < MARKED);
    }
    if (namesake)
        mark(MARK_NAMESAKE);
    if (heir)
        mark(MARK_NOBODYS_MADE);
}

/* What an RME at LR asks for and where to; false if its argument words are protected. */
static bool read_wish(const uint8_t *m, unsigned lr, unsigned form, unsigned *wanted, unsigned *target)
{
    unsigned address = read_address(m, lr + 2), bits = m[lr + 2] / 32u;

    if (form == DIRECT) {
        *wanted = m[lr + 1] % 16u * 16 + bits;
        *target = address;
        return true;
    }
    if (bits >= 4)
        address = indexed(m, address, bits % 4);
    if (any_protected(address, 4))
        return false;
    *wanted = m[address] * 16u + m[address + 1];
    *target = read_address(m, address + 2);
    return true;
}

/* The message that left the runner's Q2, or that would have. */
static void reach_read(const uint8_t *before, unsigned form, const struct answer *answer)
{
    unsigned runner = before[RUNNING_PAGE], wanted, target, message, length;

    if (!read_wish(before, get_lr(before, runner), form, &wanted, &target))
        return;
    message = first_match(before, at(runner, Q2), wanted);
    if (message == 0 || !is_marked(before[at(message, LENGTH)]))
        return;
    if (answer->kind != ANSWER_DONE) {
        mark(MARK_READ_FAULT);
        return;
    }
    length = text_length(before, message);
    mark(MARK_READ);
    if (length <= 1)
        mark(length == 0 ? MARK_READ_0 : MARK_READ_1);
    if (length == LONGEST_TEXT)
        mark(MARK_READ_29);
    if (any_protected(target, 3 + length + MARKED))
        mark(MARK_READ_TIGHT);
}

/* Marked mail that left the runner's Q1 for its Q2. */
static void reach_moved(const uint8_t *before, unsigned code)
{
    unsigned runner = before[RUNNING_PAGE];
    struct queue was = queue_read(before, at(runner, Q1), LINK), is = queue_read(world, at(runner, Q1), LINK);

    for (unsigned i = 0; i < was.count; i++) {
        bool stayed = false;

        for (unsigned n = 0; n < is.count; n++)
            stayed = stayed || is.page[n] == was.page[i];
        if (!stayed && is_marked(before[at(was.page[i], LENGTH)]))
            mark(code == 5 ? MARK_MOVED_WNM : MARK_MOVED_TME);
    }
}

/* Of how many lives of each name mail waits: marked by different deletions, and unmarked. */
static void reach_lives(void)
{
    struct letter letters[PAGES];
    unsigned count = all_letters(world, letters), lives[HIGHEST_NAME + 1] = { 0 };
    bool seen[PAGES] = { false };

    for (unsigned i = 0; i < count; i++) {
        unsigned which = is_marked(letters[i].length) ? died[index_of_page(letters[i].page)] + 1 : 0;
        bool known = letters[i].length == NOTICE;

        seen[index_of_page(letters[i].page)] = is_marked(letters[i].length);
        for (unsigned n = 0; n < i && !known; n++) {
            unsigned other = is_marked(letters[n].length) ? died[index_of_page(letters[n].page)] + 1 : 0;

            known = letters[n].name == letters[i].name && letters[n].length != NOTICE && other == which;
        }
        lives[letters[i].name] += !known;
    }
    for (unsigned i = 0; i < PAGES; i++)
        died[i] = seen[i] ? died[i] : 0;
    for (unsigned name = 1; name <= HIGHEST_NAME; name++) {
        if (lives[name] > lives_before[name] && lives[name] == 2)
            mark(MARK_TWO_LIVES);
        if (lives[name] > lives_before[name] && lives[name] > 2)
            mark(MARK_THREE_LIVES);
    }
    memcpy(lives_before, lives, sizeof lives_before);
}

void reach_gone(const uint8_t *before, unsigned code, unsigned form, const struct answer *answer)
{
    bool done = answer->kind == ANSWER_DONE;

    if (code == 12 && done)
        reach_deleted(before);
    if (code == 11 && done)
        reach_created(before);
    if (code == 6 && (done || (answer->kind == ANSWER_FAULT && answer->number == FAULT_PROTECTED)))
        reach_read(before, form, answer);
    if ((code == 5 || code == 7) && done)
        reach_moved(before, code);
    reach_lives();
}
