/*
 * Pairs of dumps for the program `differ`: pairs SEED FOLDER makes their files in the folder, and writes lines for a
 * shell, the same for the same seed:
 *
 *   call WORD ..          `differ` is called with these files of the folder
 *   silent FIRST SECOND   the same, and no processor line may come of it
 *   swapped FIRST SECOND  it is called with the second file first, and must say the same with the sides exchanged
 *
 * At the end it says in comments what it has reached.
 */
#include <errno.h>
#include <stdio.h>
#include <stdlib.h>
#include <string.h>

#include "pairs.h"

enum { MOST_TRIES = 500, LONGEST_PATH = 4096 };

static const char *folder;
static unsigned pairs;     /* so far */
static bool well = true;   /* all files were written */
static unsigned long made[GROUPS][MOST_SORTS];

static void write_side(const struct side *side)
{
    char path[LONGEST_PATH];
    FILE *out;

    if (side->missing)
        return;
    snprintf(path, sizeof path, "%s/%s", folder, side->word);
    out = fopen(path, "wb");
    if (out == NULL) {
        well = false;
        return;
    }
    well = fwrite(side->bytes, 1, side->length, out) == side->length && well;
    well = fclose(out) == 0 && well;
}

static void write_call(const char *how)
{
    printf("%s '%s' '%s'\n", how, sides[0].word, sides[1].word);
}

static void begin_pair(void)
{
    for (unsigned i = 0; i < 2; i++) {
        sides[i].length = WORDS;
        sides[i].missing = false;
        snprintf(sides[i].word, sizeof sides[i].word, "%u.%s", pairs + 1, i == 0 ? "first" : "second");
    }
}

static void end_pair(bool silent)
{
    pairs++;
    write_side(&sides[0]);
    write_side(&sides[1]);
    write_call(silent ? "silent" : "call");
    if (sides[0].missing || sides[1].missing)
        return;
    if (chance(25))
        write_call("swapped");
    count_outcome(sides[0].bytes, sides[0].length, sides[1].bytes, sides[1].length);
}

/* Tries until it comes about. */
static bool make_pair(const struct sort *sort)
{
    for (unsigned tries = 0; tries < MOST_TRIES; tries++) {
        begin_pair();
        if (sort->make(sort->which)) {
            end_pair(sort->silent);
            return true;
        }
    }
    return false;
}

/* So many of each group, by turns. */
static void make_pairs(unsigned long seed)
{
    for (unsigned i = 0; i < GROUPS; i++)
        for (unsigned n = 0; n < groups[i].in_a_seed; n++) {
            unsigned long turn = (seed * groups[i].in_a_seed + n) % groups[i].count;

            made[i][turn] += make_pair(&groups[i].sorts[turn]);
        }
}

/* Not two files; those that are named are there. */
static void write_wrong_call(unsigned long seed)
{
    static const struct {
        const char *name, *words;
    } calls[] = {
        { "a call with no word", "" },
        { "a call with one word", " '1.first'" },
        { "a call with three words", " '1.first' '1.second' '1.first'" }
    };
    enum { CALLS = sizeof calls / sizeof calls[0] };

    printf("call%s\n", calls[seed % CALLS].words);
    for (unsigned i = 0; i < CALLS; i++)
        printf("# reached %s: %u\n", calls[i].name, i == seed % CALLS);
}

static void write_made(void)
{
    for (unsigned i = 0; i < GROUPS; i++)
        for (unsigned n = 0; n < groups[i].count; n++)
            printf("# reached %s: %lu\n", groups[i].sorts[n].name, made[i][n]);
}

static bool read_argument(const char *text, unsigned long *value)
{
    char *end;

    errno = 0;
    *value = strtoul(text, &end, 10);
    return *text >= '0' && *text <= '9' && *end == '\0' && errno == 0;
}

int main(int argc, char **argv)
{
    unsigned long seed;

    if (argc != 3 || !read_argument(argv[1], &seed)) {
        fprintf(stderr, "usage: %s SEED FOLDER\n", argv[0]);
        return 2;
    }
    folder = argv[2];
    list_changes();
    start_draws(seed);
    make_pairs(seed);
    write_wrong_call(seed);
    write_made();
    write_outcomes();
    if (!well)
        perror(folder);
    return well && fflush(stdout) == 0 && !ferror(stdout) ? 0 : 1;
}
