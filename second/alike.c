/*
 * Two judges side by side: alike [-v] SEED MEMORIES makes so many memories, the same for the same
 * seed, lets this kernel and the proved one judge each of them, and compares the refusal and the
 * address.  At the end it prints one line with the numbers, or at the first difference both answers
 * and a script that makes the memory; then it ends with 1.  With -v it also counts what was broken
 * how, and what came of it.
 *
 * A memory stands on a well-formed one, the ground: one that the scenes of the generator have
 * reached, or one that was built.  It is changed harmlessly, then broken in up to six ways, judged,
 * and what was stored is undone.  Only a few grounds, with more processors than names, are broken.
 */
#include <errno.h>
#include <stdio.h>
#include <stdlib.h>
#include <string.h>

#include "alike.h"
#include "judge.h"
#include "wik.h"

enum {
    ON_ONE_GROUND = 48,  /* memories */
    MOST_BREAKS = 6,
    FINE = 0, RESULTS = 6,  /* well-formed, or 30-34 */
    MOST_WAYS = 128
};
enum ground { REACHED, BUILT, CROWDED, GROUNDS };

struct tally {
    unsigned long of[RESULTS];
};

static bool verbose;
static enum ground ground;
static struct look look;         /* at the ground */
static unsigned breaks, way_used;  /* of this memory; which way, if it is one */
static bool wrecked;

static struct tally all, untouched, harmless, many, by_way[MOST_WAYS], by_ground[GROUNDS], by_trifle[MOST_WAYS];
static unsigned trifles_used, trifle_used;
static unsigned long offended[RULES], decided[RULES];

/* What the grounds have. */
enum trait {
    FULL_HOUSE, NONE_FREE, HUNGRY, FOR_INTERRUPTS, FOR_MESSAGES, MANY_WAIT, IN_Q1, IN_Q2, MARKED_MAIL, NOTICES, GRANTED,
    HALTED, NOBODY_RUNS, TRAITS
};
static const char *const trait_names[TRAITS] = {
    "fifteen processors or more", "no free page", "some that wait for a page", "some that wait for an interrupt",
    "some that wait for a message", "five or more that wait", "mail in a Q1", "mail in a Q2", "marked mail", "notices",
    "grants", "stopped ones", "nobody that runs"
};
static unsigned long traits[GROUNDS][TRAITS];

/* The ways: those of the generator's broken memories, those of bends.c, and the wrecks. */

static const struct {
    const struct way *ways;
    const unsigned *count;
} groups[] = {
    { tears, &tear_count }, { tangles, &tangle_count }, { spoils, &spoil_count },
    { bends, &bend_count }, { wrecks, &wreck_count }
};
enum { GROUPS = sizeof groups / sizeof groups[0] };

/* The ways are numbered through all groups; NULL behind the last. */
static const struct way *way_at(unsigned i)
{
    for (unsigned group = 0; group < GROUPS; group++) {
        if (i < *groups[group].count)
            return &groups[group].ways[i];
        i -= *groups[group].count;
    }
    return NULL;
}

static unsigned first_bend(void)
{
    return tear_count + tangle_count + spoil_count;
}

static unsigned first_wreck(void)
{
    return first_bend() + bend_count;
}

/* The grounds. */

static void count_ground(void)
{
    unsigned has[TRAITS] = { [HUNGRY] = look.page_waiters }, waiters = 0;

    for (unsigned i = 0; i < look.count; i++) {
        const struct one *one = &look.one[i];

        waiters += one->wait != WAIT_NONE;
        has[FOR_INTERRUPTS] += one->wait == WAIT_INTERRUPT;
        has[FOR_MESSAGES] += one->wait == WAIT_MESSAGE;
        has[IN_Q1] += one->q1;
        has[IN_Q2] += one->q2;
        has[MARKED_MAIL] += one->marked;
        has[NOTICES] += one->notices;
        has[GRANTED] += one->grant != 0;
        has[HALTED] += one->stopped;
    }
    has[FULL_HOUSE] = look.count >= HIGHEST_NAME;
    has[NONE_FREE] = look.free == 0;
    has[MANY_WAIT] = waiters >= 5;
    has[NOBODY_RUNS] = look.running == look.count;
    for (unsigned i = 0; i < TRAITS; i++)
        traits[ground][i] += has[i] > 0;
}

static void next_ground(void)
{
    ground = chance(50) ? REACHED : chance(90) ? BUILT : CROWDED;
    if (ground == REACHED)
        live_on();
    else
        build_memory(ground == CROWDED);
    look = look_at(world);
    count_ground();
}

/* One memory. */

static void change_harmlessly(unsigned changes)
{
    for (unsigned left = changes; left > 0 && look.count > 0; left--) {
        unsigned i = below(trifle_count);

        if (trifles[i].go(&look)) {
            trifles_used++;
            trifle_used = i;
        }
    }
}

/* A way that aims at this number or a later one; with nobody there, only those that need nobody. */
static unsigned pick_way(unsigned lowest)
{
    for (;;) {
        unsigned i = look.count == 0 ? from_to(first_bend(), first_wreck() - 1) : below(first_wreck());
        unsigned number = way_at(i)->number;

        if (number == 0 || number >= lowest)
            return i;
    }
}

/* Some ways find too late that they have nothing to aim at; what they stored by then counts. */
static void use_way(unsigned i)
{
    unsigned before = stores_made();

    way_at(i)->go(&look);
    if (stores_made() != before) {
        breaks++;
        way_used = i;
    }
}

static void break_somehow(void)
{
    unsigned choice = below(16), left = choice < 2 ? 0 : choice < 8 ? 1 : choice < 12 ? 2 : from_to(3, MOST_BREAKS);
    unsigned lowest = chance(60) ? from_to(REFUSE_USES, REFUSE_RUNNING) : REFUSE_USES;

    breaks = 0;
    wrecked = left > 0 && chance(4);
    if (wrecked)
        use_way(from_to(first_wreck(), first_wreck() + wreck_count - 1));
    for (; left > 0 && !wrecked; left--)
        use_way(pick_way(lowest));
}

/* What is not broken is changed harmlessly, so that it is no ground again. */
static void make_memory(void)
{
    trifles_used = 0;
    change_harmlessly(chance(50) ? 0 : from_to(1, 3));
    break_somehow();
    if (breaks + trifles_used == 0)
        change_harmlessly(from_to(1, 6));
}

/* The rules that the memory offends, and those without which the answer were another. */
static void count_rules(const struct finding *found)
{
    struct survey s;
    unsigned at_rule[RULES], same = 0, last_rule = 0;

    survey(&s, world);
    for (unsigned i = 0; i < RULES; i++) {
        struct told told = { NOWHERE };

        rules[i].offends(&s, &told);
        at_rule[i] = told.lowest;
        offended[i] += told.lowest != NOWHERE;
        if (rules[i].number == found->number && at_rule[i] == found->address) {
            same++;
            last_rule = i;
        }
    }
    if (same == 1)
        decided[last_rule]++;
}

static void count(const struct finding *found)
{
    unsigned result = found->number == 0 ? FINE : found->number - REFUSE_USES + 1;

    all.of[result]++;
    if (!verbose)
        return;
    by_ground[ground].of[result]++;
    if (ground == CROWDED)
        ;
    else if (breaks == 0 && trifles_used == 0)
        untouched.of[result]++;
    else if (breaks == 0 && trifles_used == 1)
        by_trifle[trifle_used].of[result]++;
    else if (breaks == 0)
        harmless.of[result]++;
    else if (breaks == 1)
        by_way[way_used].of[result]++;
    else
        many.of[result]++;
    count_rules(found);
}

/* As the proved kernel answers: the number, and the address from bit 8 on. */
static uint64_t as_answer(const struct finding *found)
{
    return found->number == 0 ? WIK_DONE : found->number | (uint64_t)found->address << 8;
}

/* What is told. */

static void print_answer(const char *who, uint64_t answer)
{
    if (answer == WIK_DONE)
        printf("%s: done\n", who);
    else
        printf("%s: refused %u at %u (answer %llu)\n", who, wik_number(answer), wik_broken_at(answer),
               (unsigned long long)answer);
}

/* A memory in a script is all zeros at first. */
static void print_script(void)
{
    for (unsigned i = 0; i < WORDS; i++) {
        unsigned end = i;

        while (end < WORDS && end < i + LONGEST_PUT && world[end] != 0)
            end++;
        if (end == i)
            continue;
        printf("break %u", i);
        for (; i < end; i++)
            printf(" %u", (unsigned)world[i]);
        puts("");
        i--;
    }
    puts("judge");
}

static void print_numbers(unsigned long memories)
{
    printf("%lu memories, %lu well-formed", memories, all.of[FINE]);
    for (unsigned result = 1; result < RESULTS; result++)
        printf(", %lu refused by %u", all.of[result], REFUSE_USES + result - 1);
}

/* All of it is a script. */
static void print_difference(unsigned long seed, unsigned long memory, uint64_t first, uint64_t second)
{
    printf("# a difference: seed %lu, memory %lu, ", seed, memory);
    if (breaks == 0)
        printf("not broken");
    else
        printf("broken in %u ways, the last one: %s", breaks, way_at(way_used)->name);
    puts("");
    print_answer("# the proved kernel", first);
    print_answer("# the second kernel", second);
    print_script();
    printf("# ");
    print_numbers(memory);
    puts(", A DIFFERENCE");
}

static void print_tally(const struct tally *t, const char *name)
{
    for (unsigned result = 0; result < RESULTS; result++)
        printf("%9lu", t->of[result]);
    printf("  %s\n", name);
}

static void print_counts(void)
{
    puts("  reached    built  crowded  grounds with");
    for (unsigned i = 0; i < TRAITS; i++)
        printf("%9lu%9lu%9lu  %s\n", traits[REACHED][i], traits[BUILT][i], traits[CROWDED][i], trait_names[i]);
    puts("     fine       30       31       32       33       34  of memories");
    print_tally(&by_ground[REACHED], "on a ground that was reached");
    print_tally(&by_ground[BUILT], "on a ground that was built");
    print_tally(&by_ground[CROWDED], "on a ground with more processors than names; all others are:");
    print_tally(&untouched, "the ground as it is");
    for (unsigned i = 0; i < trifle_count; i++)
        print_tally(&by_trifle[i], trifles[i].name);
    print_tally(&harmless, "several of these");
    for (unsigned i = 0; way_at(i) != NULL; i++)
        print_tally(&by_way[i], way_at(i)->name);
    print_tally(&many, "several ways");
    puts(" offended  decided  rule");
    for (unsigned i = 0; i < RULES; i++)
        printf("%9lu%9lu  %u: %s\n", offended[i], decided[i], rules[i].number, rules[i].sentence);
}

/* Makes and judges; false at a difference, which it tells. */
static bool next_memory(unsigned long seed, unsigned long memory)
{
    struct finding found;
    uint64_t first, second;

    if (memory % ON_ONE_GROUND == 1)
        next_ground();
    keep_stores();
    make_memory();
    found = judge(world);
    first = wik_judge(world, WORDS);
    second = as_answer(&found);
    count(&found);
    if (first != second)
        print_difference(seed, memory, first, second);
    undo_stores();
    return first == second;
}

static bool read_argument(const char *text, unsigned long *number)
{
    char *end;

    errno = 0;
    *number = strtoul(text, &end, 10);
    return *text >= '0' && *text <= '9' && *end == '\0' && errno == 0;
}

int main(int argc, char **argv)
{
    unsigned long seed, memories;

    verbose = argc == 4 && strcmp(argv[1], "-v") == 0;
    if (argc != 3 + verbose || !read_argument(argv[argc - 2], &seed) || !read_argument(argv[argc - 1], &memories)) {
        fprintf(stderr, "usage: %s [-v] SEED MEMORIES\n", argv[0]);
        return 2;
    }
    start_draws(seed);
    for (unsigned long memory = 1; memory <= memories; memory++)
        if (!next_memory(seed, memory))
            return 1;
    if (verbose)
        print_counts();
    print_numbers(memories);
    puts(", no difference");
    return fflush(stdout) == 0 && !ferror(stdout) ? 0 : 1;
}
