/* Files and blocks of settings: good ones of every version and count, and damage of every kind. */
#include "files.h"

#include <string.h>

/* Bounds come often. */
static unsigned some_of(unsigned low, unsigned high)
{
    unsigned choice = below(10);

    return choice < 3 ? low : choice < 6 ? high : from_to(low, high);
}

static unsigned some_letter(void)
{
    static const uint8_t bounds[] = { 'A', 'Z', 'a', 'z' };

    if (chance(50))
        return bounds[below(sizeof bounds)];
    return chance(50) ? from_to('A', 'Z') : from_to('a', 'z');
}

/* Most are places where the processor can run when it is started. */
static unsigned some_address(void)
{
    static const uint16_t bounds[] = { 0, 255, 256, FIRST_LR, 8191, 8191 };

    if (chance(60))
        return from_to(TABLES_END, 7400);
    return chance(70) ? bounds[below(sizeof bounds / sizeof bounds[0])] : below(WORDS);
}

static void add(struct file *f, unsigned byte)
{
    if (f->length < LONGEST_FILE)
        f->bytes[f->length++] = (uint8_t)byte;
}

static void add_label(struct file *f)
{
    unsigned letters = some_of(0, LABEL_BYTES);

    for (unsigned i = 0; i < LABEL_BYTES; i++)
        add(f, i < letters ? some_letter() : 0);
}

static void add_head(struct file *f, unsigned version, unsigned entries)
{
    add(f, version);
    add(f, entries);
    add(f, some_of(16, 47));
    add(f, chance(60) ? from_to(1, 4) : some_of(1, 255));
    if (version >= 2)
        add(f, chance(30) ? some_of(0, 255) : below(256));
    if (version >= 3)
        add_label(f);
}

static void add_entry(struct file *f, unsigned name, unsigned highest)
{
    unsigned address;

    add(f, name);
    add(f, some_of(1, highest));
    add(f, some_of(0, 15));
    address = some_address();
    add(f, address / 256);
    add(f, address % 256);
}

/* The names 2-15 in any order; behind them, where there are more entries, a name that is none or stands already. */
static void add_entries(struct file *f, unsigned entries)
{
    static const uint8_t none[] = { 0, 1, 16, 2, 15 };
    uint8_t names[MOST_ENTRIES];
    unsigned highest = chance(50) ? 15 : from_to(2, 15);

    for (unsigned i = 0; i < MOST_ENTRIES; i++)
        names[i] = (uint8_t)(i + 2);
    for (unsigned i = MOST_ENTRIES - 1; i > 0; i--) {
        unsigned other = below(i + 1);
        uint8_t kept = names[i];

        names[i] = names[other];
        names[other] = kept;
    }
    for (unsigned i = 0; i < entries; i++)
        add_entry(f, i < MOST_ENTRIES ? names[i] : none[below(sizeof none)], highest);
}

static void add_block(struct file *f, unsigned version, unsigned entries)
{
    f->block = f->length;
    add_head(f, version, entries);
    add_entries(f, entries);
}

static void add_trailer(struct file *f)
{
    unsigned distance = f->length - f->block;

    add(f, distance / 256);
    add(f, distance % 256);
    add(f, f->bytes[f->block + AT_VERSION]);
    add(f, f->bytes[f->block + AT_COUNT]);
}

/* Of two draws what was seldom reached. */
static void pick_form(unsigned long (*reached_by)(unsigned, unsigned), unsigned *version, unsigned *entries)
{
    unsigned other_version = from_to(1, 3), other_entries = some_of(0, MOST_ENTRIES);

    *version = from_to(1, 3);
    *entries = from_to(0, MOST_ENTRIES);
    if (reached_by(other_version, other_entries) < reached_by(*version, *entries)) {
        *version = other_version;
        *entries = other_entries;
    }
}

/* Nothing, older blocks, or any bytes. */
static void add_older(struct file *f)
{
    unsigned choice = below(10);

    if (choice < 4)
        return;
    for (unsigned left = from_to(1, 3); left > 0 && choice < 8; left--) {
        unsigned version = from_to(1, 3);

        add_block(f, version, chance(60) ? below(3) : f->length < 60 ? below(8) : 0);
    }
    for (unsigned left = from_to(1, 20); left > 0 && choice >= 8; left--)
        add(f, chance(50) ? below(5) : below(256));
}

void make_empty(struct file *f)
{
    memset(f, 0, sizeof *f);
}

void make_file(struct file *f)
{
    unsigned version, entries;

    make_empty(f);
    add_older(f);
    pick_form(settings_done, &version, &entries);
    add_block(f, version, entries);
    add_trailer(f);
}

void make_bare(struct file *f)
{
    unsigned version, entries;

    make_empty(f);
    f->bare = true;
    pick_form(settings_written, &version, &entries);
    add_block(f, version, entries);
}

static unsigned version_of(const struct file *f)
{
    return f->bytes[f->block + AT_VERSION];
}

static unsigned entries_of(const struct file *f)
{
    return f->bytes[f->block + AT_COUNT];
}

/* The entry's first byte in the file. */
static unsigned entry_at(const struct file *f, unsigned i)
{
    return f->block + (unsigned)head_length(version_of(f)) + ENTRY_BYTES * i;
}

/* Some processors of different priorities, most of them where they can run, for a script to go on with. */
void make_crew(struct file *f, unsigned divider)
{
    unsigned version = from_to(1, 3), most = chance(70) ? 8 : MOST_ENTRIES, entries = from_to(3, most);

    make_empty(f);
    add_block(f, version, entries);
    f->bytes[f->block + AT_DIVIDER] = (uint8_t)divider;
    for (unsigned i = 0; i < entries; i++) {
        unsigned address = from_to(TABLES_END, 7400), first = entry_at(f, i);

        if (chance(10))
            continue;
        f->bytes[first + AT_HIGH] = (uint8_t)(address / 256);
        f->bytes[first + AT_LOW] = (uint8_t)(address % 256);
        if (chance(50))
            f->bytes[first + AT_PRIORITY] = (uint8_t)from_to(1, 15);
    }
    add_trailer(f);
}

struct verdict verdict_on(const struct file *f)
{
    const uint8_t *bytes = f->bytes + f->first;
    unsigned length = f->length - f->first;

    return f->bare ? verdict_of_block(bytes, length) : verdict_of_file(bytes, length);
}

/* Where the trailer stands in a file as it was made; a bare one has its end there. */
static unsigned trailer_of(const struct file *f)
{
    return f->bare || f->length < TRAILER_BYTES ? f->length : f->length - TRAILER_BYTES;
}

static unsigned spot_of(const struct file *f, unsigned at)
{
    unsigned head = (unsigned)head_length(version_of(f));

    if (at >= trailer_of(f))
        return at - trailer_of(f);
    if (at - f->block < head)
        return SPOT_HEAD + at - f->block;
    return SPOT_ENTRY + (at - f->block - head) % ENTRY_BYTES;
}

/* A byte of the newest block or the trailer; of two draws the one that was seldom damaged. */
static unsigned some_byte(const struct file *f)
{
    unsigned one = from_to(f->block, f->length - 1), other = from_to(f->block, f->length - 1);

    if (!f->bare && chance(25))
        one = from_to(trailer_of(f), f->length - 1);
    return damaged_at(spot_of(f, other)) < damaged_at(spot_of(f, one)) ? other : one;
}

static void change_byte(struct file *f)
{
    unsigned at = some_byte(f), choice = below(5), old = f->bytes[at];
    unsigned new = choice == 0 ? old + 1 : choice == 1 ? old - 1 : choice == 2 ? 0 : choice == 3 ? 255 : below(256);

    if ((new & 255) == old)
        new = old ^ 1;
    f->damaged |= (uint32_t)1 << spot_of(f, at);
    f->bytes[at] = (uint8_t)(new & 255);
}

/* One byte of head and trailer alike, in the head, in the trailer, or in both. */
static void set_both(struct file *f, unsigned in_block, unsigned in_trailer, unsigned value)
{
    unsigned choice = f->bare ? 0 : below(4), trailer = trailer_of(f);

    if (choice != 1)
        f->bytes[f->block + in_block] = (uint8_t)value;
    if (choice != 0 && !f->bare)
        f->bytes[trailer + in_trailer] = (uint8_t)value;
}

static void change_version(struct file *f)
{
    static const uint8_t versions[] = { 4, 4, 5, 255, 128, 0, 0, 1, 2, 3 };

    set_both(f, AT_VERSION, AT_LAST_VERSION, versions[below(sizeof versions)]);
}

static void change_count(struct file *f)
{
    static const uint8_t counts[] = { 15, 15, 16, 255, 14, 0 };
    unsigned old = entries_of(f), choice = below(10);

    if (choice < sizeof counts)
        set_both(f, AT_COUNT, AT_LAST_COUNT, counts[choice]);
    else
        set_both(f, AT_COUNT, AT_LAST_COUNT, (choice % 2 == 0 ? old + 1 : old - 1) & 255);
}

/* Too short or too far: by one, by the trailer's length, by 256, to the file's start. */
static void change_distance(struct file *f)
{
    unsigned at = trailer_of(f), distance = f->length - f->block - TRAILER_BYTES;

    if (f->bare)
        return;
    switch (below(7)) {
    case 0: distance++; break;
    case 1: distance--; break;
    case 2: distance += TRAILER_BYTES; break;
    case 3: distance += 256; break;
    case 4: distance = at; break;
    case 5: distance = 0; break;
    default: distance = f->length; break;
    }
    f->bytes[at + AT_DISTANCE] = (uint8_t)(distance / 256);
    f->bytes[at + AT_DISTANCE + 1] = (uint8_t)(distance % 256);
}

/* A byte that is no letter, often beside the letters; a letter behind a zero; a zero before a letter. */
static void change_label(struct file *f)
{
    static const uint8_t beside[] = { '@', '[', '`', '{', '-', ' ', '0', 255, 193, 1 };
    uint8_t *label = f->bytes + f->block + AT_LABEL;
    unsigned at = chance(30) ? LABEL_BYTES - 1 : below(LABEL_BYTES), choice = below(4);

    if (version_of(f) != 3)
        return;
    if (choice < 2) {
        label[at] = beside[below(sizeof beside)];
    } else if (choice == 2) {
        label[at] = (uint8_t)some_letter();
        if (at > 0)
            label[at - 1] = 0;
    } else {
        label[at] = 0;
    }
}

/* One value out of range by one, or far; sometimes a bound, which is good. */
static void change_entry(struct file *f)
{
    static const uint8_t values[][6] = {
        { 0, 1, 16, 17, 18, 255 }, { 0, 0, 16, 16, 255, 15 }, { 16, 16, 255, 128, 15, 0 }, { 32, 32, 255, 64, 31, 0 }
    };
    unsigned entries = entries_of(f), i = below(entries), field = below(4);

    if (entries == 0 || entries > MOST_ENTRIES)
        return;
    i = chance(20) ? 0 : chance(25) ? entries - 1 : i;
    f->bytes[entry_at(f, i) + field] = values[field][below(6)];
}

static void double_name(struct file *f)
{
    unsigned entries = entries_of(f), one, other;

    if (entries < 2 || entries > MOST_ENTRIES)
        return;
    one = below(entries);
    other = below(entries - 1);
    other += other >= one;
    if (chance(25)) {
        one = 0;
        other = entries - 1;
    } else if (chance(25)) {
        one = below(entries - 1);
        other = one + 1;
    }
    f->bytes[entry_at(f, one) + AT_NAME] = f->bytes[entry_at(f, other) + AT_NAME];
}

static void change_head(struct file *f)
{
    static const uint8_t lines[] = { 15, 15, 48, 48, 0, 255, 16, 47 };
    static const uint8_t dividers[] = { 0, 0, 0, 1, 255 };

    if (chance(60))
        f->bytes[f->block + AT_LINE] = lines[below(sizeof lines)];
    else
        f->bytes[f->block + AT_DIVIDER] = dividers[below(sizeof dividers)];
}

/* The end or the front is not lent, or there is more behind. */
static void cut(struct file *f)
{
    unsigned choice = below(8);

    if (choice < 2)
        f->length--;
    else if (choice == 2)
        f->length = from_to(f->block, f->length);
    else if (choice == 3)
        add(f, below(4));
    else if (choice == 4)
        f->length = f->first + from_to(0, 5);
    else if (choice == 5 && !f->bare)
        add_trailer(f);
    else
        f->first = f->block + (choice == 6 ? 1 : below(3));
    if (f->first > f->length)
        f->first = f->length;
}

/* Fifteen or sixteen entries, all there. */
static void overfill(struct file *f)
{
    unsigned version = from_to(1, 3), entries = chance(80) ? 15 : 16;

    f->length = f->block;
    add_block(f, version, entries);
    if (!f->bare)
        add_trailer(f);
}

static void damage_once(struct file *f)
{
    unsigned choice = below(100);

    if (choice < 36)
        change_byte(f);
    else if (choice < 44)
        change_version(f);
    else if (choice < 50)
        change_count(f);
    else if (choice < 56)
        change_distance(f);
    else if (choice < 64)
        change_label(f);
    else if (choice < 76)
        change_entry(f);
    else if (choice < 84)
        double_name(f);
    else if (choice < 89)
        change_head(f);
    else if (choice < 97)
        cut(f);
    else
        overfill(f);
}

/* Once or twice; the second time only where all bytes are in their places still. */
void damage(struct file *f)
{
    struct file good = *f;

    damage_once(f);
    if (f->length == good.length && f->first == good.first && version_of(f) == version_of(&good)
        && entries_of(f) == entries_of(&good) && chance(35))
        damage_once(f);
}

void damage_to(struct file *f, unsigned number)
{
    struct file good = *f;

    for (unsigned tries = 0; tries < 200 && verdict_on(f).number != number; tries++) {
        *f = good;
        damage(f);
    }
}
