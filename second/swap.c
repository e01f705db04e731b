/* A box is swapped: starts from settings, damaged files, writes with every room, parts that end at the last word. */
#include "files.h"

#include <string.h>

enum { FILE_AREA = LONGEST_FILE + LONGEST_BLOCK, LAST_WORDS = BUFFER - WORDS };

/* The end of so many words from an address on, at most 32, of which the last differs from the bytes. */
static unsigned last_different(unsigned address, const uint8_t *bytes, unsigned from, unsigned count)
{
    unsigned end = from;

    for (unsigned n = from; n < count && n < from + LONGEST_PUT; n++)
        if (world[address + n] != bytes[n])
            end = n + 1;
    return end;
}

/* Stores the bytes where the words differ from them, in as few orders as their gaps allow. */
static void lay_bytes(unsigned address, const uint8_t *bytes, unsigned count)
{
    bool by_break = address + count > at(FIRST_PAGE, 0);

    for (unsigned i = 0; i < count && !full(); i++) {
        unsigned end = last_different(address, bytes, i, count);

        if (world[address + i] == bytes[i])
            continue;
        if (by_break)
            order_break(address + i, bytes + i, end - i);
        else
            order_put(address + i, bytes + i, end - i);
        i = end - 1;
    }
}

static void lay_again(unsigned address, const struct file *f)
{
    lay_bytes(address, f->bytes, f->length);
}

static void lay(unsigned address, const struct file *f)
{
    lay_again(address, f);
    if (!full())
        reach_damage(f);
}

static void settings_at(unsigned address, const struct file *f)
{
    order_settings(address + f->first, f->length - f->first);
}

/* What the start left: the words, the registers, the judge. */
static void look_around(void)
{
    maybe_changes(85);
    if (chance(25))
        order_registers();
    if (chance(25))
        order_judge();
}

/* In page 0, whose words the start clears, if it is short; else anywhere. */
static unsigned place_of_file(const struct file *f)
{
    unsigned address = place(FILE_AREA);

    return f->length < TABLES - PAGE_WORDS && chance(30) ? below(PAGE_WORDS) : address;
}

/* A file that is good. */
void start_from_settings(void)
{
    struct file f;
    unsigned address;

    make_file(&f);
    address = place_of_file(&f);
    lay(address, &f);
    settings_at(address, &f);
}

/* A file that a script can go on from. */
void start_with_crew(unsigned divider)
{
    unsigned address = place(FILE_AREA);
    struct file f;

    make_crew(&f, divider);
    lay(address, &f);
    settings_at(address, &f);
}

/* A file that is good or not, whatever the memory is. */
void any_settings(void)
{
    unsigned address = from_to(TABLES_END, at(FIRST_PAGE, 0) - FILE_AREA);
    struct file f;

    make_file(&f);
    if (chance(70))
        damage(&f);
    lay(address, &f);
    settings_at(address, &f);
}

static void break_some(void)
{
    for (unsigned left = from_to(1, 4); left > 0; left--) {
        unsigned address = chance(50) ? from_to(TABLES, TABLES_END - 4) : from_to(at(FIRST_PAGE, 0), WORDS - 4);
        uint8_t values[4];

        for (unsigned i = 0; i < sizeof values; i++)
            values[i] = (uint8_t)(chance(50) ? from_to(FIRST_PAGE, LAST_PAGE) : below(256));
        order_break(address, values, from_to(1, 4));
    }
}

/* On a broken memory a bad file is refused as ever, and a good one starts; it may stand in the control pages. */
static void start_on_broken(void)
{
    unsigned address = chance(60) ? place(FILE_AREA) : from_to(at(FIRST_PAGE, 0), BUFFER - LONGEST_FILE);
    struct file f, bad;

    make_file(&f);
    bad = f;
    damage_to(&bad, chance(50) ? REFUSE_LAYOUT : chance(50) ? REFUSE_VALUE : REFUSE_VERSION);
    break_some();
    if (chance(50))
        order_judge();
    if (chance(60)) {
        lay(address, &bad);
        settings_at(address, &bad);
    }
    lay(address, &f);
    settings_at(address, &f);
}

/* "20" comes before what is wrong with the file. */
static void start_at_wrong_length(void)
{
    static const uint16_t lengths[] = { 0, 8191, 8193, 8200 };

    order_length(lengths[below(4)]);
    for (unsigned left = from_to(1, 2); left > 0; left--)
        any_settings();
    order_length(WORDS);
}

/* Some starts in a row; then those that the settings named are started. */
void scene_starts(void)
{
    if (chance(20))
        start_at_wrong_length();
    for (unsigned left = from_to(2, 5); left > 0 && !full(); left--) {
        if (may_break() && chance(40))
            start_on_broken();
        else
            start_from_settings();
        look_around();
    }
    scene_revive();
}

/* How much room: just enough, too little by one, to spare, too little, up to the last word. */
static unsigned some_room(unsigned file, unsigned needed)
{
    unsigned choice = below(20);

    if (choice < 5)
        return needed;
    if (choice < 9)
        return needed - 1;
    if (choice < 16)
        return needed + from_to(1, 40);
    if (choice < 17)
        return below(needed);
    if (choice < 18)
        return BUFFER + 1 - file;
    return BUFFER - file;
}

/* What the write left: the words around the new block, or all that changed. */
static void look_at_write(const struct writing *w)
{
    unsigned from = w->used > 8 ? w->file + w->used - 8 : w->file;

    if (chance(45))
        order_changes();
    else if (chance(50))
        order_words(from, 32);
}

/* Writes the block behind the used bytes; true if it was written. */
static bool write_block(struct writing *w)
{
    unsigned needed = w->used == 0 ? w->length + TRAILER_BYTES : w->used + w->length;

    w->room = some_room(w->file, needed);
    if (chance(4))
        w->used = chance(50) ? w->room + 1 : 65535;
    order_write(w);
    look_at_write(w);
    return last.kind == ANSWER_WRITTEN && w->file + w->room <= BUFFER && w->used <= w->room;
}

/* 0 for a good one, else the number by which it is to be refused. */
static unsigned some_refusal(unsigned percent_good)
{
    static const uint8_t numbers[] = { REFUSE_VALUE, REFUSE_LAYOUT, REFUSE_VERSION };

    return chance(percent_good) ? 0 : numbers[below(3)];
}

static void make_refused_file(struct file *f, unsigned number)
{
    make_file(f);
    if (number != 0)
        damage_to(f, number);
}

static void make_refused_bare(struct file *f, unsigned number)
{
    make_bare(f);
    if (number != 0)
        damage_to(f, number);
}

/*
 * A file damaged again and again, one or two places at a time.  One that is good still is written to, and
 * seldom started from, since that ends all that the script has built up.
 */
void scene_damages(void)
{
    unsigned address = place(FILE_AREA), block_at = from_to(TABLES_END, at(FIRST_PAGE, 0) - LONGEST_FILE);
    struct file good, bad, block;

    make_file(&good);
    make_refused_bare(&block, some_refusal(50));
    lay(block_at, &block);
    for (unsigned left = from_to(5, 10); left > 0 && !full(); left--) {
        struct writing w = { .block = block_at + block.first, .length = block.length - block.first };

        bad = good;
        damage(&bad);
        lay(address, &bad);
        if (verdict_on(&bad).number == 0 ? chance(5) : chance(65)) {
            settings_at(address, &bad);
            maybe_changes(12);
            continue;
        }
        w.file = address + bad.first;
        w.used = bad.length - bad.first;
        lay_again(block_at, &block);
        lay_again(address, &bad);  /* where the block was put over it */
        write_block(&w);
    }
}

/* The block is written from where it stands: elsewhere, in the file, or where it will stand itself. */
static void choose_block(struct writing *w, unsigned elsewhere, bool file_is_good)
{
    struct file block;
    unsigned choice = below(10);
    size_t newest;

    if (choice == 0 && file_is_good && w->used > 0) {
        const uint8_t *start = newest_block(world + w->file, w->used, &newest);

        w->block = (unsigned)(start - world);
        w->length = (unsigned)newest;
        return;
    }
    make_refused_bare(&block, some_refusal(80));
    w->block = choice < 3 ? w->file + w->used + below(6) : elsewhere;
    lay(w->block, &block);
    w->block += block.first;
    w->length = block.length - block.first;
}

/* A row of writes to one file, and sometimes a start from what was written. */
void scene_writes(void)
{
    unsigned elsewhere = from_to(TABLES_END, at(FIRST_PAGE, 0) - LONGEST_FILE), number = some_refusal(75);
    struct writing w = { .file = from_to(TABLES_END, at(FIRST_PAGE, 0) - 3 * FILE_AREA) };
    struct file f;
    bool written = false;

    if (chance(35))
        make_empty(&f);
    else
        make_refused_file(&f, number);
    lay(w.file, &f);
    w.file += f.first;
    for (unsigned left = from_to(2, 5); left > 0 && !full(); left--) {
        unsigned used = w.used = written ? w.used : f.length - f.first;

        if (used > FILE_AREA)
            return;
        choose_block(&w, elsewhere, used > 0 && verdict_of_file(world + w.file, used).number == 0);
        if (write_block(&w)) {
            written = true;
            used = (unsigned)last.written;
        }
        w.used = used;
    }
    if (written && chance(15)) {
        order_settings(w.file, w.used);
        look_around();
    }
}

/* True if the write would store in a protected word. */
static bool stores_in_protected(const struct writing *w)
{
    uint8_t file[BUFFER], block[BUFFER];

    if (w->file + w->room > BUFFER || w->block + w->length > BUFFER)
        return false;
    memcpy(file, world + w->file, w->room);
    memcpy(block, world + w->block, w->length);
    (void)kernel_write_settings(file, w->room, w->used, block, w->length);
    for (unsigned i = 0; i < w->room; i++)
        if (file[i] != world[w->file + i] && w->file + i < WORDS && is_protected(w->file + i))
            return true;
    return false;
}

/* An address from which so many words end at the last one, one behind it, or anywhere. */
static unsigned ending(unsigned count)
{
    unsigned choice = below(10);

    if (choice < 1)
        return chance(50) ? 65535 : BUFFER + 1;
    if (choice < 2 || count > BUFFER)
        return below(BUFFER);
    return BUFFER - count + (choice < 6 ? 1 : 0);
}

static unsigned some_count(void)
{
    static const uint16_t counts[] = { 0, 0, 1, 3, 4, 8, 13, 87, 91, 7848, 8200, 8201, 65535 };

    return counts[below(sizeof counts / sizeof counts[0])];
}

static void some_parts(void)
{
    struct writing w = { 0 };

    w.room = some_count();
    w.length = some_count();
    w.file = ending(w.room);
    w.block = ending(w.length);
    w.used = chance(40) ? w.room : chance(30) ? 0 : some_count();
    if (!stores_in_protected(&w))
        order_write(&w);
}

/* The eight words behind the memory hold the shortest file there is. */
static void last_file(void)
{
    uint8_t file[LAST_WORDS] = { 1, 0, 0, 5, 0, 4, 1, 0 };
    struct writing w = { .file = WORDS, .room = LAST_WORDS, .block = WORDS, .length = 4 };

    file[AT_LINE] = (uint8_t)from_to(15, 48);
    order_break(WORDS, file, LAST_WORDS);
    w.used = chance(60) ? 0 : LAST_WORDS;
    w.room -= chance(20);
    order_write(&w);
    w.block = WORDS + 4;
    order_write(&w);
    if (chance(25))
        order_settings(WORDS, LAST_WORDS);
    order_settings(WORDS, LAST_WORDS + 1);
    maybe_changes(60);
}

void scene_parts(void)
{
    for (unsigned left = from_to(1, 4); left > 0; left--) {
        unsigned count = some_count();

        if (chance(50))
            order_settings(ending(count), count);
        else
            some_parts();
    }
    if (may_break() && chance(50))
        last_file();
    maybe_changes(40);
}
