/* How pairs of dumps are made, and which sorts of them there are. */
#include <string.h>

#include "pairs.h"

enum { FIRST = 1, SECOND = 2, BOTH = FIRST | SECOND };

struct side sides[2];

/* ---- memories */

static void some_ground(void)
{
    if (chance(50))
        live_on();
    else
        build_memory(false);
}

static void take(unsigned which, const uint8_t *m)
{
    for (unsigned i = 0; i < 2; i++)
        if ((which >> i & 1u) != 0)
            memcpy(sides[i].bytes, m, WORDS);
}

/* They differ, and both are well-formed. */
static bool is_good_pair(void)
{
    return memcmp(sides[0].bytes, sides[1].bytes, WORDS) != 0 && well_formed(sides[0].bytes)
        && well_formed(sides[1].bytes);
}

/* What breaks the memory is undone. */
static bool change_once(const struct change *change)
{
    static uint8_t before[BUFFER];
    struct look l = look_at(world);

    memcpy(before, world, sizeof before);
    if (l.count > 0 && change->go(&l) && well_formed(world))
        return true;
    memcpy(world, before, sizeof world);
    return false;
}

static const struct change *some_change(void)
{
    unsigned choice = below(10);

    if (choice < 5)
        return &letter_changes[below(letter_change_count)];
    if (choice < 9)
        return &place_changes[below(place_change_count)];
    return &word_changes[below(word_change_count)];
}

static void change_often(unsigned times)
{
    for (; times > 0; times--)
        change_once(some_change());
}

/* A way that aims at this number or a later one. */
static const struct way *some_way(unsigned lowest)
{
    const struct way *way;

    do {
        unsigned choice = below(10);

        if (choice < 3)
            way = &tears[below(tear_count)];
        else if (choice < 5)
            way = &tangles[below(tangle_count)];
        else
            way = choice < 9 ? &spoils[below(spoil_count)] : &bends[below(bend_count)];
    } while (way->number < lowest && way->number != 0);
    return way;
}

/* False if it is well-formed still. */
static bool break_world(void)
{
    struct look l = look_at(world);
    unsigned lowest = chance(30) ? REFUSE_USES : from_to(REFUSE_USES, REFUSE_RUNNING);

    for (unsigned left = from_to(1, 3); left > 0 && l.count > 0; left--)
        some_way(lowest)->go(&l);
    if (chance(4))
        wrecks[below(wreck_count)].go(&l);
    return !well_formed(world);
}

/* ---- how a pair is made: false if it did not come about */

/* The same history, but for one order. */
static bool make_history(unsigned twist)
{
    live_on();
    if (!play_twins((enum twist)twist))
        return false;
    take(FIRST, world);
    take(SECOND, twin);
    return is_good_pair();
}

static bool make_renamed(unsigned renaming)
{
    some_ground();
    take(FIRST, world);
    if (!rename_pages((enum renaming)renaming))
        return false;
    take(SECOND, world);
    return is_good_pair();
}

static bool make_renamed_and_changed(unsigned renaming)
{
    if (!make_renamed(renaming))
        return false;
    change_often(from_to(1, 3));
    take(SECOND, world);
    return is_good_pair();
}

static bool make_several(unsigned changes)
{
    some_ground();
    take(FIRST, world);
    change_often(from_to(2, changes));
    take(SECOND, world);
    return is_good_pair();
}

/* All changes are about one processor, so that several things of it differ. */
static bool make_several_of_one(unsigned changes)
{
    struct look l;

    some_ground();
    take(FIRST, world);
    l = look_at(world);
    chosen = existing_name(&l);
    change_often(changes);
    chosen = 0;
    take(SECOND, world);
    return is_good_pair();
}

static bool make_unrelated(unsigned scenes)
{
    some_ground();
    take(FIRST, world);
    for (unsigned left = from_to(1, scenes); left > 0; left--)
        live_on();
    if (chance(50))
        build_memory(false);
    take(SECOND, world);
    return is_good_pair();
}

static bool make_one_broken(unsigned which)
{
    some_ground();
    take(BOTH - which, world);
    change_often(below(2));
    if (!break_world())
        return false;
    take(which, world);
    return true;
}

/* The second one from the same ground or from the first. */
static bool make_both_broken(unsigned percent)
{
    static uint8_t ground[BUFFER];

    some_ground();
    memcpy(ground, world, sizeof ground);
    if (!break_world())
        return false;
    take(FIRST, world);
    if (chance(percent))
        memcpy(world, ground, sizeof world);
    if (!break_world())
        return false;
    take(SECOND, world);
    return true;
}

/* A ground, any bytes, or the same byte in all words. */
static void make_noise_of(unsigned which)
{
    unsigned choice = below(4), value = chance(50) ? 255 : below(256);

    some_ground();
    for (unsigned i = 0; i < WORDS && choice > 0; i++)
        world[i] = (uint8_t)(choice == 1 ? value : below(256));
    take(which, world);
}

static bool make_noise(unsigned which)
{
    make_noise_of(FIRST);
    make_noise_of(SECOND);
    return !well_formed(sides[which].bytes);
}

/* Each well-formed or broken. */
static void make_any(void)
{
    some_ground();
    if (chance(30))
        break_world();
    take(FIRST, world);
    if (chance(50))
        change_often(2);
    if (chance(30))
        break_world();
    take(SECOND, world);
}

/* What is behind a memory is any bytes. */
static void resize(struct side *side)
{
    static const uint16_t lengths[] = { 0, 1, WORDS - 1, WORDS + 1, LONGEST_DUMP };

    side->length = lengths[below(sizeof lengths / sizeof lengths[0])];
    for (unsigned i = WORDS; i < side->length; i++)
        side->bytes[i] = (uint8_t)below(256);
}

static bool make_resized(unsigned which)
{
    make_any();
    for (unsigned i = 0; i < 2; i++)
        if ((which >> i & 1u) != 0)
            resize(&sides[i]);
    return true;
}

/* No such file, a folder, or a file in what is none; the other one may be as bad as it likes. */
static bool make_missing(unsigned which)
{
    static const char *const words[] = { "none", "none", ".", ".", "none/x", "1.first/x" };

    make_any();
    for (unsigned i = 0; i < 2; i++) {
        sides[i].missing = (which >> i & 1u) != 0;
        if (sides[i].missing)
            strcpy(sides[i].word, words[below(sizeof words / sizeof words[0])]);
        else if (chance(30))
            resize(&sides[i]);
    }
    return true;
}

static bool make_same(unsigned broken)
{
    some_ground();
    if (broken != 0 && !break_world())
        return false;
    take(BOTH, world);
    return true;
}

static bool make_one_file(unsigned percent_broken)
{
    strcpy(sides[1].word, sides[0].word);
    return make_same(chance(percent_broken));
}

/* All changes are numbered through. */
static const struct change *change_at(unsigned i)
{
    if (i < letter_change_count)
        return &letter_changes[i];
    i -= letter_change_count;
    return i < place_change_count ? &place_changes[i] : &word_changes[i - place_change_count];
}

/* One change, in either file. */
static bool make_change(unsigned i)
{
    unsigned which = chance(50) ? FIRST : SECOND;

    some_ground();
    take(BOTH - which, world);
    if (!change_once(change_at(i)))
        return false;
    take(which, world);
    return is_good_pair();
}

/* ---- the sorts */

static struct sort histories[] = {
    { "a history with one order left out", make_history, LEFT_OUT, false },
    { "a history with one order changed", make_history, CHANGED, false },
    { "a history with one order more", make_history, ADDED, false }
};
static struct sort renamings[] = {
    { "all control pages renamed", make_renamed, OF_ALL, true },
    { "two control pages renamed", make_renamed, OF_TWO, true },
    { "the pages of mail renamed", make_renamed, OF_MAIL, true },
    { "all control pages renamed, and some changes", make_renamed_and_changed, OF_ALL, false }
};
static struct sort mixtures[] = {
    { "several changes", make_several, 8, false },
    { "several changes of one processor", make_several_of_one, 10, false },
    { "two memories of their own", make_unrelated, 20, false }
};
static struct sort broken_ones[] = {
    { "the first broken", make_one_broken, FIRST, true },
    { "the second broken", make_one_broken, SECOND, true },
    { "both broken, each in its way", make_both_broken, 60, true },
    { "both broken, with the same words", make_same, true, true },
    { "any bytes, or one byte in all words", make_noise, 0, true }
};
static struct sort sizes[] = {
    { "the first of a wrong size", make_resized, FIRST, true },
    { "the second of a wrong size", make_resized, SECOND, true },
    { "both of a wrong size", make_resized, BOTH, true }
};
static struct sort losses[] = {
    { "the first missing or a folder", make_missing, FIRST, true },
    { "the second missing or a folder", make_missing, SECOND, true },
    { "both missing or folders", make_missing, BOTH, true }
};
static struct sort equals[] = {
    { "two files with the same words", make_same, false, true },
    { "one file for both", make_one_file, 30, true }
};
static struct sort changes[MOST_SORTS];

#define COUNT(sorts) (sizeof(sorts) / sizeof(sorts)[0])

struct group groups[GROUPS] = {
    { histories, COUNT(histories), 3 }, { renamings, COUNT(renamings), 3 }, { mixtures, COUNT(mixtures), 2 },
    { broken_ones, COUNT(broken_ones), 2 }, { sizes, COUNT(sizes), 2 }, { losses, COUNT(losses), 2 },
    { equals, COUNT(equals), 1 }, { changes, 0, 12 }
};

void list_changes(void)
{
    struct group *group = &groups[GROUPS - 1];

    group->count = letter_change_count + place_change_count + word_change_count;
    for (unsigned i = 0; i < group->count; i++)
        changes[i] = (struct sort){ change_at(i)->name, make_change, i, change_at(i)->silent };
}
