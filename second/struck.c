/* Counting what bursts have reached: their lists and refusals, whom they woke, and what the clock did in them. */
#include <stdio.h>
#include <string.h>

#include "generate.h"

enum { CLASSES = 32 };
enum form { FORM_GOOD, FORM_EMPTY, FORM_ODD, FORM_TOO_LONG, FORM_BAD, FORMS_OF_LISTS };
enum feat {
    FEAT_IDLE, FEAT_BAD_AND_27, FEAT_TWO_KINDS, FEAT_BOTH, FEAT_PAIRS, FEAT_WAKES, FEAT_WOKE_TWO, FEAT_WOKE_LINES,
    FEAT_IDLE_TWO, FEAT_IDLE_TAKEN, FEAT_STRUCK, FEAT_SWITCHES, FEAT_EACH, FEAT_CLASSES, FEAT_STOPPED, FEAT_CLOCK,
    FEAT_CLOCK_MANY, FEATS
};

static const char *const form_names[FORMS_OF_LISTS] = { "a good", "an empty", "an odd", "a too long", "a bad" };
static const char *const feat_names[FEATS] = {
    "bursts done from idle", "bursts refused by 27 with a bad pair too",
    "bursts refused with bad pairs of both kinds", "bursts refused by a pair that breaks 24 and 25",
    "pairs delivered in bursts", "wakes in bursts", "bursts that woke two or more",
    "bursts that woke waiters of several interrupts", "bursts from idle that woke two or more",
    "bursts from idle in which a later one woken took over", "waiters struck several times in one burst",
    "bursts in which the runner changed twice or more",
    "bursts that end otherwise if who runs is asked at the end only",
    "bursts that woke with several class numbers", "stopped ones woken in bursts", "bursts with the clock line",
    "bursts with the clock line many times"
};

static unsigned long done_with[MOST_PAIRS + 1], refused_at[2][MOST_PAIRS], feats[FEATS], clock_ends[4];
static unsigned long odd_lists, long_lists, at_wrong_length[FORMS_OF_LISTS], on_broken[5][FORMS_OF_LISTS];

/* What was seen while the pairs of one burst were delivered one by one. */
struct course {
    unsigned woken, switches, first_runner, ticks;
    unsigned struck[PAGES];          /* how often, by page */
    bool by[INTERRUPTS + 1];         /* somebody was woken from its queue */
    bool with_class[CLASSES];        /* somebody was woken from 48-50 with that class number */
};

unsigned long bursts_done(unsigned pairs)
{
    return done_with[pairs];
}

unsigned long bursts_refused_at(unsigned place)
{
    return refused_at[0][place - 1] + refused_at[1][place - 1];
}

static bool breaks_24(const uint8_t *pair)
{
    return pair[0] < 16 || pair[0] > 50;
}

static bool breaks_25(const uint8_t *pair)
{
    return pair[1] > 31 || (pair[0] < 48 && pair[1] != 0);
}

static bool has_bad_pair(const uint8_t *list, unsigned count)
{
    for (unsigned i = 0; i + 1 < count; i += 2)
        if (breaks_24(list + i) || breaks_25(list + i))
            return true;
    return false;
}

static enum form form_of(const uint8_t *list, unsigned count)
{
    if (count % 2 != 0)
        return FORM_ODD;
    if (count > 2 * MOST_PAIRS)
        return FORM_TOO_LONG;
    if (has_bad_pair(list, count))
        return FORM_BAD;
    return count == 0 ? FORM_EMPTY : FORM_GOOD;
}

static void reach_bad_pair(const uint8_t *list, unsigned count, const struct answer *answer)
{
    const uint8_t *pair = list + 2 * (answer->place - 1);
    bool other = false;

    refused_at[answer->number - REFUSE_INTERRUPT][answer->place - 1]++;
    for (unsigned i = 2 * answer->place; i < count; i += 2)
        other = other || (answer->number == REFUSE_INTERRUPT ? !breaks_24(list + i) && breaks_25(list + i)
                                                             : breaks_24(list + i));
    feats[FEAT_TWO_KINDS] += other;
    feats[FEAT_BOTH] += breaks_24(pair) && breaks_25(pair);
}

static void reach_refused_burst(const uint8_t *list, unsigned count, const struct answer *answer)
{
    enum form form = form_of(list, count);

    if (answer->number == REFUSE_LENGTH)
        at_wrong_length[form]++;
    else if (answer->number >= REFUSE_USES)
        on_broken[answer->number - REFUSE_USES][form]++;
    else if (answer->number != REFUSE_LIST)
        reach_bad_pair(list, count, answer);
    else {
        odd_lists += form == FORM_ODD;
        long_lists += form == FORM_TOO_LONG;
        feats[FEAT_BAD_AND_27] += has_bad_pair(list, count);
    }
}

/* Delivers one pair to the copy and notes who was struck and woken. */
static void follow(uint8_t *m, const uint8_t *pair, struct course *c)
{
    struct queue list = queue_read(m, PROCESSOR_LIST, LIST_LINK);
    unsigned runner = m[RUNNING_PAGE], header[PAGES], reason[PAGES];

    for (unsigned i = 0; i < list.count; i++) {
        header[i] = wait_header_of(m, list.page[i]);
        reason[i] = m[at(list.page[i], REASON)];
    }
    serve_from_outside(m, pair[0], pair[1]);
    who_runs(m);
    for (unsigned i = 0; i < list.count; i++) {
        bool woken = header[i] != 0 && wait_header_of(m, list.page[i]) == 0;

        c->struck[list.page[i] - FIRST_PAGE] += m[at(list.page[i], REASON)] != reason[i];
        c->woken += woken;
        feats[FEAT_STOPPED] += woken && (m[at(list.page[i], STATE)] & STOPPED) != 0;
        if (woken)
            c->by[(header[i] - TABLES - 2) / 2] = true;
        if (woken && header[i] == interrupt_header(pair[0]) && pair[0] >= 48)
            c->with_class[pair[1]] = true;
    }
    c->switches += m[RUNNING_PAGE] != runner;
    c->ticks += pair[0] == m[LINE];
    for (unsigned i = 0; pair[0] == m[LINE] && i < 4 && m[C0 + i] == 0; i++)
        clock_ends[i]++;
    if (runner == 0 && c->first_runner == 0)
        c->first_runner = m[RUNNING_PAGE];
}

/* True if it matters that who runs is asked after each pair. */
static bool differs_at_end(const uint8_t *before, const uint8_t *list, unsigned count)
{
    uint8_t m[BUFFER];

    memcpy(m, before, sizeof m);
    for (unsigned i = 0; i < count; i += 2)
        serve_from_outside(m, list[i], list[i + 1]);
    who_runs(m);
    return memcmp(m, world, sizeof m) != 0;
}

static void count_course(const struct course *c, bool from_idle)
{
    unsigned lines = 0, classes = 0;

    for (unsigned k = 1; k <= INTERRUPTS; k++)
        lines += c->by[k];
    for (unsigned n = 0; n < CLASSES; n++)
        classes += c->with_class[n];
    for (unsigned i = 0; i < PAGES; i++)
        feats[FEAT_STRUCK] += c->struck[i] > 1;
    feats[FEAT_WAKES] += c->woken;
    feats[FEAT_WOKE_TWO] += c->woken > 1;
    feats[FEAT_WOKE_LINES] += lines > 1;
    feats[FEAT_IDLE_TWO] += from_idle && c->woken > 1;
    feats[FEAT_IDLE_TAKEN] += from_idle && c->first_runner != world[RUNNING_PAGE];
    feats[FEAT_SWITCHES] += c->switches > 1;
    feats[FEAT_CLASSES] += classes > 1;
    feats[FEAT_CLOCK] += c->ticks > 0;
    feats[FEAT_CLOCK_MANY] += c->ticks > 1;
}

void reach_burst(const uint8_t *before, const uint8_t *list, unsigned count, const struct answer *answer)
{
    struct course course = { 0 };
    uint8_t m[BUFFER];

    if (answer->kind == ANSWER_REFUSED) {
        reach_refused_burst(list, count, answer);
        return;
    }
    memcpy(m, before, sizeof m);
    for (unsigned i = 0; i < count; i += 2)
        follow(m, list + i, &course);
    done_with[count / 2]++;
    feats[FEAT_PAIRS] += count / 2;
    feats[FEAT_IDLE] += before[RUNNING_PAGE] == 0;
    feats[FEAT_EACH] += differs_at_end(before, list, count);
    count_course(&course, before[RUNNING_PAGE] == 0);
}

static void write_lists(void)
{
    for (unsigned n = 0; n <= MOST_PAIRS; n++)
        printf("# reached bursts done with %u pairs: %lu\n", n, done_with[n]);
    printf("# reached bursts refused by 27, odd: %lu\n", odd_lists);
    printf("# reached bursts refused by 27, too long: %lu\n", long_lists);
    for (unsigned number = 0; number < 2; number++)
        for (unsigned n = 0; n < MOST_PAIRS; n++)
            printf("# reached bursts refused by %u at %u: %lu\n", REFUSE_INTERRUPT + number, n + 1,
                   refused_at[number][n]);
}

void write_bursts(void)
{
    write_lists();
    for (unsigned n = 0; n < FEATS; n++)
        printf("# reached %s: %lu\n", feat_names[n], feats[n]);
    for (unsigned n = 0; n < 4; n++)
        printf("# reached interrupt %u served in bursts: %lu\n", 51 + n, clock_ends[n]);
    for (unsigned form = 0; form < FORMS_OF_LISTS; form++) {
        printf("# reached bursts refused by 20, %s list: %lu\n", form_names[form], at_wrong_length[form]);
        for (unsigned n = 0; n < 5; n++)
            printf("# reached bursts refused by %u, %s list: %lu\n", REFUSE_USES + n, form_names[form],
                   on_broken[n][form]);
    }
}
