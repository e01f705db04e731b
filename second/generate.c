/*
 * The generator of scripts: generate SEED COUNT [KIND] writes a script of COUNT orders, the same
 * for the same arguments, and at its end what it has reached.  KIND is one of calls, broken,
 * judge, parser and clock; without it the seed decides.
 */
#include <errno.h>
#include <stdio.h>
#include <stdlib.h>
#include <string.h>

#include "generate.h"

static const char *const kind_names[KINDS] = { "calls", "broken", "judge", "parser", "clock" };

static bool read_argument(const char *text, unsigned long *number)
{
    char *end;

    errno = 0;
    *number = strtoul(text, &end, 10);
    return *text >= '0' && *text <= '9' && *end == '\0' && errno == 0;
}

static bool read_kind(const char *text)
{
    for (unsigned i = 0; i < KINDS; i++)
        if (strcmp(text, kind_names[i]) == 0) {
            kind = (enum kind)i;
            return true;
        }
    return false;
}

int main(int argc, char **argv)
{
    static const enum kind by_seed[] = { KIND_BROKEN, KIND_CALLS, KIND_JUDGE, KIND_CALLS, KIND_CLOCK,
                                         KIND_BROKEN, KIND_CALLS, KIND_JUDGE, KIND_CALLS, KIND_PARSER };
    unsigned long seed, count;

    if (argc < 3 || argc > 4 || !read_argument(argv[1], &seed) || !read_argument(argv[2], &count)) {
        fprintf(stderr, "usage: %s SEED COUNT [calls|broken|judge|parser|clock]\n", argv[0]);
        return 2;
    }
    kind = by_seed[seed % 10];
    if (argc == 4 && !read_kind(argv[3])) {
        fprintf(stderr, "%s: no such kind\n", argv[3]);
        return 2;
    }
    start_draws(seed);
    start_orders(count);
    opening();
    while (!full())
        keep_going();
    write_reached();
    return fflush(stdout) == 0 && !ferror(stdout) ? 0 : 1;
}
