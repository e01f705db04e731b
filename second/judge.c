/*
 * The rules on well-formed memory.  Each gives the addresses that offend it; none has any exactly
 * if the memory is well-formed.  A control page offends by its word 0, whichever of its words is
 * wrong, but a semaphore by its own word.
 */
#include "judge.h"

static void tell(struct told *told, unsigned address)
{
    if (address < told->lowest)
        told->lowest = address;
}

static void tell_page(struct told *told, unsigned page)
{
    tell(told, at(page, LINK));
}

static void tell_unless(struct told *told, unsigned address, bool fine)
{
    if (!fine)
        tell(told, address);
}

/* A link that ends falsely is its page's fault, a header of pages 4-7 is told by itself. */
static void tell_false_end(struct told *told, const struct walk *w)
{
    if (w->false_end >= at(FIRST_PAGE, 0))
        tell_page(told, w->false_end / PAGE_WORDS);
    else if (w->false_end != 0)
        tell(told, w->false_end);
}

static bool between(unsigned low, unsigned value, unsigned high)
{
    return low <= value && value <= high;
}

/* "Semaphores are signed bytes." */
static int signed_byte(unsigned value)
{
    return value < 128 ? (int)value : (int)value - 256;
}

static bool has_name(const struct survey *s, unsigned name)
{
    for (unsigned i = 0; i < s->processors.count; i++)
        if (name_of(s->m, s->processors.page[i]) == name)
            return true;
    return false;
}

/* 30: a control page used twice or not at all */

static void used_once(const struct survey *s, struct told *told)
{
    for (unsigned page = FIRST_PAGE; page <= LAST_PAGE; page++)
        if (s->uses[index_of(page)] != 1)
            tell_page(told, page);
}

static void lists_end(const struct survey *s, struct told *told)
{
    tell_false_end(told, &s->processors);
    tell_false_end(told, &s->free_list);
    for (unsigned i = 0; i < s->processors.count; i++) {
        tell_false_end(told, &s->q1[i]);
        tell_false_end(told, &s->q2[i]);
    }
}

static void grants_are_pages(const struct survey *s, struct told *told)
{
    for (unsigned name = 1; name <= HIGHEST_NAME; name++) {
        unsigned page = s->m[GRANTS + name];

        tell_unless(told, GRANTS + name, page == 0 || is_control_page(page));
    }
}

/* 31: a wait queue or semaphore */

static void wait_queues_end(const struct survey *s, struct told *told)
{
    for (unsigned k = 1; k <= INTERRUPTS; k++)
        tell_false_end(told, &s->interrupt[k]);
    tell_false_end(told, &s->page_queue);
    for (unsigned i = 0; i < s->processors.count; i++)
        tell_false_end(told, &s->own_wait[i]);
}

/* A page that is not on the processor list has no waiting bit: it waits nowhere. */
static void waiting_bits(const struct survey *s, struct told *told)
{
    for (unsigned page = FIRST_PAGE; page <= LAST_PAGE; page++) {
        bool bit = s->listed[index_of(page)] && (s->m[at(page, STATE)] & WAITING) != 0;

        if (s->waits[index_of(page)] != (bit ? 1u : 0u))
            tell_page(told, page);
    }
}

static void reasons(const struct survey *s, struct told *told)
{
    for (unsigned k = 1; k <= INTERRUPTS; k++)
        for (unsigned i = 0; i < s->interrupt[k].count; i++)
            if (s->m[at(s->interrupt[k].page[i], REASON)] == 0)
                tell_page(told, s->interrupt[k].page[i]);
    for (unsigned i = 0; i < s->page_queue.count; i++)
        if (s->m[at(s->page_queue.page[i], REASON)] != 0)
            tell_page(told, s->page_queue.page[i]);
    for (unsigned i = 0; i < s->processors.count; i++) {
        unsigned page = s->processors.page[i];

        if (s->waits[index_of(page)] == 0 && s->m[at(page, REASON)] != 0)
            tell_page(told, page);
    }
}

static bool any_match(const uint8_t *m, const struct walk *messages, unsigned wanted)
{
    for (unsigned i = 0; i < messages->count; i++)
        if (matches(wanted, m[at(messages->page[i], FROM)]))
            return true;
    return false;
}

static void message_waits(const struct survey *s, struct told *told)
{
    for (unsigned i = 0; i < s->processors.count; i++) {
        const struct walk *wait = &s->own_wait[i];
        unsigned page = s->processors.page[i], reason = s->m[at(page, REASON)];

        if (wait->count == 0)
            continue;
        if (wait->count != 1 || wait->page[0] != page)
            tell_page(told, page);
        if (reason % 16 > 7 || any_match(s->m, &s->q1[i], reason))
            tell_page(told, page);
    }
}

static void semaphores(const struct survey *s, struct told *told)
{
    for (unsigned k = 1; k <= INTERRUPTS; k++) {
        unsigned semaphore = interrupt_header(k) - 1;

        tell_unless(told, semaphore, signed_byte(s->m[semaphore]) == -(int)s->interrupt[k].count);
    }
    tell_unless(told, FREE_SEMAPHORE,
                signed_byte(s->m[FREE_SEMAPHORE]) == (int)s->free_list.count - (int)s->page_queue.count);
    for (unsigned i = 0; i < s->processors.count; i++) {
        unsigned semaphore = at(s->processors.page[i], OWN_SEMAPHORE);

        tell_unless(told, semaphore, signed_byte(s->m[semaphore]) == -(int)s->own_wait[i].count);
    }
}

static void free_list_empty(const struct survey *s, struct told *told)
{
    tell_unless(told, FREE_LIST, s->page_queue.count == 0 || s->free_list.count == 0);
}

static void waiters_hold_no_grant(const struct survey *s, struct told *told)
{
    for (unsigned i = 0; i < s->page_queue.count; i++) {
        unsigned name = name_of(s->m, s->page_queue.page[i]);

        tell_unless(told, GRANTS + name, s->m[GRANTS + name] == 0);
    }
}

/* 32: a processor or message record */

static void names_and_priorities(const struct survey *s, struct told *told)
{
    unsigned bearers[HIGHEST_NAME + 1] = { 0 };

    for (unsigned i = 0; i < s->processors.count; i++)
        bearers[name_of(s->m, s->processors.page[i])]++;
    for (unsigned i = 0; i < s->processors.count; i++) {
        unsigned page = s->processors.page[i], name = name_of(s->m, page);

        if (name == 0 || bearers[name] > 1 || priority_of(s->m, page) == 0)
            tell_page(told, page);
    }
}

static void zeros_of_word_12(const struct survey *s, struct told *told)
{
    for (unsigned i = 0; i < s->processors.count; i++)
        if ((s->m[at(s->processors.page[i], STATE)] & STATE_ZEROS) != 0)
            tell_page(told, s->processors.page[i]);
}

static void grants_to_names(const struct survey *s, struct told *told)
{
    for (unsigned name = 1; name <= HIGHEST_NAME; name++)
        tell_unless(told, GRANTS + name, s->m[GRANTS + name] == 0 || has_name(s, name));
}

static void rest_of_page_10(const struct survey *s, struct told *told)
{
    tell_unless(told, GRANTS, s->m[GRANTS] == 0);
    for (unsigned word = HIGHEST_NAME + 1; word < PAGE_WORDS; word++)
        tell_unless(told, GRANTS + word, s->m[GRANTS + word] == 0);
}

static void tell_bad_messages(const uint8_t *m, struct told *told, const struct walk *messages)
{
    for (unsigned i = 0; i < messages->count; i++) {
        unsigned page = messages->page[i], from = m[at(page, FROM)], length = m[at(page, LENGTH)];
        bool fine = length <= LONGEST_TEXT || is_marked(length) || length == NOTICE;

        if (from / 16 == 0 || !between(1, from % 16, 7) || !fine)
            tell_page(told, page);
    }
}

static void message_records(const struct survey *s, struct told *told)
{
    for (unsigned i = 0; i < s->processors.count; i++) {
        tell_bad_messages(s->m, told, &s->q1[i]);
        tell_bad_messages(s->m, told, &s->q2[i]);
    }
}

/* 33: the code or error table */

static void codes(const struct survey *s, struct told *told)
{
    for (unsigned code = 0; code < CODES; code++) {
        unsigned kind = code_kind(s->m, code);
        bool fine = code < 2 ? kind == KIND_BUILT_IN : code == 15 ? kind != KIND_BUILT_IN : true;

        tell_unless(told, CODE_TABLE + 2 * code, fine && kind <= KIND_OWN);
    }
}

static void page_9_range(const struct survey *s, struct told *told)
{
    tell_unless(told, FAULT_TABLE, between(1, s->m[FAULT_TABLE], FAULT_TABLE_FULL));
}

static void page_9_entries(const struct survey *s, struct told *told)
{
    for (unsigned word = 1; word < PAGE_WORDS; word++) {
        unsigned entry = s->m[FAULT_TABLE + word];
        bool fine = entry / 16 != 0 && between(1, entry % 16, FAULTS);

        tell_unless(told, FAULT_TABLE + word, word < s->m[FAULT_TABLE] ? fine : entry == 0);
    }
}

/* 34: counters and the running entry */

static void line(const struct survey *s, struct told *told)
{
    tell_unless(told, LINE, between(16, s->m[LINE], 47));
}

static void counters(const struct survey *s, struct told *told)
{
    const unsigned ends[4] = { s->m[DIVIDER], 10, 60, 60 };

    for (unsigned i = 0; i < 4; i++)
        tell_unless(told, C0 + i, s->m[C0 + i] < ends[i]);
}

static void runner_is_right(const struct survey *s, struct told *told)
{
    unsigned running = s->m[RUNNING_PAGE], highest = 0;

    for (unsigned i = 0; i < s->processors.count; i++)
        if (is_ready(s->m, s->processors.page[i]) && priority_of(s->m, s->processors.page[i]) > highest)
            highest = priority_of(s->m, s->processors.page[i]);
    if (running == 0)
        tell_unless(told, RUNNING_PAGE, highest == 0);
    else if (!is_control_page(running) || !s->listed[index_of(running)])
        tell(told, RUNNING_PAGE);
    else
        tell_unless(told, RUNNING_PAGE, is_ready(s->m, running) && priority_of(s->m, running) == highest);
}

/* Word 24 may hold anything: its page's word 7 lies in the memory all the same. */
static void runner_is_named(const struct survey *s, struct told *told)
{
    unsigned running = s->m[RUNNING_PAGE];

    tell_unless(told, RUNNING_WHO, s->m[RUNNING_WHO] == (running == 0 ? 0 : s->m[at(running, WHO)]));
}

static void word_26(const struct survey *s, struct told *told)
{
    tell_unless(told, ALWAYS_ZERO, s->m[ALWAYS_ZERO] == 0);
}

static void divider(const struct survey *s, struct told *told)
{
    tell_unless(told, DIVIDER, s->m[DIVIDER] >= 1);
}

/* A rule is found by its number, so their order here is only that of the table in the documents. */
const struct rule rules[RULES] = {
    { REFUSE_USES, "every control page is used once", used_once },
    { REFUSE_USES, "a link or header of a list is 0 or 236-255", lists_end },
    { REFUSE_USES, "a grant is 0 or 236-255", grants_are_pages },
    { REFUSE_WAITS, "a link or header of a wait queue is 0 or 236-255", wait_queues_end },
    { REFUSE_WAITS, "waiting bit set exactly if in one wait queue", waiting_bits },
    { REFUSE_WAITS, "reasons 1-255 in interrupt queues, 0 in the page queue and when not waiting", reasons },
    { REFUSE_WAITS, "a message wait holds its owner only, reason flag 0-7, and matches nothing in its Q1",
      message_waits },
    { REFUSE_WAITS, "semaphores as above", semaphores },
    { REFUSE_WAITS, "free list empty if anyone waits for a page", free_list_empty },
    { REFUSE_WAITS, "who waits for a page holds no grant", waiters_hold_no_grant },
    { REFUSE_RECORDS, "names differ and lie in 1-15, priorities 1-15", names_and_priorities },
    { REFUSE_RECORDS, "the two zeros of word 12", zeros_of_word_12 },
    { REFUSE_RECORDS, "grants only to existing names", grants_to_names },
    { REFUSE_RECORDS, "page 10's other words zero", rest_of_page_10 },
    { REFUSE_RECORDS, "senders 1-15, flags 1-7, word 2 of a message 0-29, 64-93 or 128", message_records },
    { REFUSE_TABLES, "kinds 0-2, codes 0, 1 built in, 15 absent or own", codes },
    { REFUSE_TABLES, "page 9 in range", page_9_range },
    { REFUSE_TABLES, "names 1-15, faults 1-13, unused zero", page_9_entries },
    { REFUSE_RUNNING, "line 16-47", line },
    { REFUSE_RUNNING, "counters below their ends", counters },
    { REFUSE_RUNNING, "the running one is ready and none ready is higher, idle only if none is ready",
      runner_is_right },
    { REFUSE_RUNNING, "word 25 of page 7 is the running one's word 7", runner_is_named },
    { REFUSE_RUNNING, "page 7 word 26 zero", word_26 },
    { REFUSE_RUNNING, "divider 1-255", divider }
};

/* The lowest address of all the rules with this number, or NOWHERE. */
unsigned lowest_of(unsigned number, const struct survey *s)
{
    struct told told = { NOWHERE };

    for (unsigned i = 0; i < RULES; i++)
        if (rules[i].number == number)
            rules[i].offends(s, &told);
    return told.lowest;
}

/* The numbers are tried in their order; the first that has an address is given. */
struct finding judge(const uint8_t *m)
{
    struct survey s;

    survey(&s, m);
    for (unsigned number = REFUSE_USES; number <= REFUSE_RUNNING; number++) {
        unsigned lowest = lowest_of(number, &s);

        if (lowest != NOWHERE)
            return (struct finding){ number, lowest };
    }
    return (struct finding){ 0, NOWHERE };
}

bool well_formed(const uint8_t *m)
{
    return judge(m).number == 0;
}
