/* What `differ` has to say of the pairs, counted. */
#include <stdio.h>

#include "differing.h"
#include "pairs.h"

enum { COMBINATIONS = 1 << ASPECTS, NUMBERS = REFUSE_RUNNING - REFUSE_USES + 1 };
enum { FEW = 20, MANY = 200 };
enum { OF_FIRST = IN_FIRST, OF_SECOND = IN_SECOND, OF_BOTH = IN_BOTH, SIDES };

static const char *const titles[SIDES] = { "", "the first", "the second", "both" };
static unsigned long same, one_word, few_words, many_words, most_words, words_only;
static unsigned long sizes[SIDES], broken[SIDES], told[NUMBERS], only_in[SIDES], differs[COMBINATIONS];

static void count_words(const uint8_t *first, const uint8_t *second)
{
    unsigned count = 0;

    for (unsigned i = next_difference(first, second, 0); i < WORDS; i = next_difference(first, second, i + 1))
        count++;
    one_word += count == 1;
    few_words += count > 1 && count <= FEW;
    many_words += count > FEW && count <= MANY;
    most_words += count > MANY;
}

/* Which of the two are broken. */
static unsigned count_broken(const uint8_t *first, const uint8_t *second)
{
    struct finding one = judge(first), other = judge(second);
    unsigned which = (one.number != 0 ? OF_FIRST : 0u) | (other.number != 0 ? OF_SECOND : 0u);

    if (one.number != 0)
        told[one.number - REFUSE_USES]++;
    if (other.number != 0)
        told[other.number - REFUSE_USES]++;
    broken[which] += which != 0;
    return which;
}

/* Whether there is a processor line. */
static bool count_name(const uint8_t *first, const uint8_t *second, unsigned name)
{
    struct comparison c = compare_name(first, second, name);
    unsigned combination = 0;

    for (unsigned i = 0; i < ASPECTS; i++)
        combination |= (c.differs[i] ? 1u : 0u) << i;
    differs[combination] += combination != 0;
    only_in[c.where] += c.where == IN_FIRST || c.where == IN_SECOND;
    return combination != 0 || c.where == IN_FIRST || c.where == IN_SECOND;
}

static void count_names(const uint8_t *first, const uint8_t *second)
{
    bool any = false;

    for (unsigned name = 1; name <= HIGHEST_NAME; name++)
        any = count_name(first, second, name) || any;
    if (next_difference(first, second, 0) == WORDS)
        same++;
    else
        words_only += !any;
}

void count_outcome(const uint8_t *first, size_t first_length, const uint8_t *second, size_t second_length)
{
    unsigned wrong = (first_length != WORDS ? OF_FIRST : 0u) | (second_length != WORDS ? OF_SECOND : 0u);

    if (wrong != 0) {
        sizes[wrong]++;
        return;
    }
    count_words(first, second);
    if (count_broken(first, second) == 0)
        count_names(first, second);
}

static void write_combination(unsigned combination)
{
    static const char *const aspects[ASPECTS] = { "state", "priority", "Q1", "Q2" };

    printf("# reached a processor differs in");
    for (unsigned i = 0; i < ASPECTS; i++)
        if ((combination >> i & 1u) != 0)
            printf(" %s", aspects[i]);
    printf(": %lu\n", differs[combination]);
}

void write_outcomes(void)
{
    printf("# reached same: %lu\n", same);
    printf("# reached one word differs: %lu\n", one_word);
    printf("# reached 2 to %d words differ: %lu\n", FEW, few_words);
    printf("# reached %d to %d words differ: %lu\n", FEW + 1, MANY, many_words);
    printf("# reached more words differ: %lu\n", most_words);
    printf("# reached both well-formed, words differ and no processor: %lu\n", words_only);
    for (unsigned i = OF_FIRST; i < SIDES; i++)
        printf("# reached told by 20, %s: %lu\n", titles[i], sizes[i]);
    for (unsigned i = OF_FIRST; i < SIDES; i++)
        printf("# reached told as broken, %s: %lu\n", titles[i], broken[i]);
    for (unsigned i = 0; i < NUMBERS; i++)
        printf("# reached a file told by %u: %lu\n", REFUSE_USES + i, told[i]);
    for (unsigned i = OF_FIRST; i <= OF_SECOND; i++)
        printf("# reached a processor only in %s: %lu\n", titles[i], only_in[i]);
    for (unsigned i = 1; i < COMBINATIONS; i++)
        write_combination(i);
}
