/*
 * The comparing program: which words of two dumps differ, and what that means for each processor.
 * Standard output has answers only.
 */
#include <stdio.h>
#include <stdlib.h>

#include "differing.h"
#include "disk.h"

enum { FIRST, SECOND, DUMPS };
static const char *const titles[DUMPS] = { "first", "second" };
static struct contents dumps[DUMPS];

/* "`first: refused 20`, `second: refused 20`, or both in this order"; false if both have 8,192 bytes. */
static bool print_sizes(void)
{
    bool any = false;

    for (unsigned i = 0; i < DUMPS; i++) {
        if (dumps[i].used == WORDS && !dumps[i].too_long)
            continue;
        printf("%s: refused %u\n", titles[i], (unsigned)REFUSE_LENGTH);
        any = true;
    }
    return any;
}

/* "`ADDRESS FIRST SECOND` for every address where they differ, rising"; false if there is none. */
static bool print_words(const uint8_t *first, const uint8_t *second)
{
    bool any = false;

    for (unsigned i = next_difference(first, second, 0); i < WORDS; i = next_difference(first, second, i + 1)) {
        printf("%u %u %u\n", i, (unsigned)first[i], (unsigned)second[i]);
        any = true;
    }
    return any;
}

/* "`first: refused N at ADDRESS`, the same for `second`"; false if both are well-formed. */
static bool print_broken(void)
{
    bool any = false;

    for (unsigned i = 0; i < DUMPS; i++) {
        struct finding broken = judge(dumps[i].bytes);

        if (broken.number == 0)
            continue;
        printf("%s: refused %u at %u\n", titles[i], broken.number, broken.address);
        any = true;
    }
    return any;
}

/* "and those of `state`, `priority`, `Q1`, `Q2` that differ, in this order"; nothing where nothing differs. */
static bool print_aspects(unsigned name, const struct comparison *c)
{
    static const char *const aspects[ASPECTS] = { "state", "priority", "Q1", "Q2" };
    bool any = false;

    for (unsigned i = 0; i < ASPECTS; i++) {
        if (!c->differs[i])
            continue;
        if (!any)
            printf("processor %u: differs in", name);
        printf(" %s", aspects[i]);
        any = true;
    }
    if (any)
        putchar('\n');
    return any;
}

static bool print_processor(const uint8_t *first, const uint8_t *second, unsigned name)
{
    struct comparison c = compare_name(first, second, name);

    if (c.where == IN_BOTH)
        return print_aspects(name, &c);
    if (c.where != 0)
        printf("processor %u: only in %s\n", name, titles[c.where == IN_FIRST ? FIRST : SECOND]);
    return c.where != 0;
}

/* "one pass over the names 1 to 15, at most one line a name" */
static bool print_processors(const uint8_t *first, const uint8_t *second)
{
    bool any = false;

    for (unsigned name = 1; name <= HIGHEST_NAME; name++)
        any = print_processor(first, second, name) || any;
    return any;
}

static void print_comparison(const uint8_t *first, const uint8_t *second)
{
    bool any;

    if (print_sizes())
        return;
    any = print_words(first, second);
    if (print_broken())
        return;
    any = print_processors(first, second) || any;
    if (!any)
        puts("same");
}

int main(int argc, char **argv)
{
    if (argc != 1 + DUMPS) {
        fputs("usage: differ FIRST SECOND\n", stderr);
        return EXIT_FAILURE;
    }
    for (int i = 0; i < DUMPS; i++)
        if (!read_file(argv[1 + i], &dumps[i])) {
            perror(argv[1 + i]);
            return EXIT_FAILURE;
        }
    print_comparison(dumps[FIRST].bytes, dumps[SECOND].bytes);
    return EXIT_SUCCESS;
}
