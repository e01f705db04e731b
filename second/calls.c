/*
 * Calls of the program `site`: calls SEED FOLDER makes the file S in the folder, or none, sometimes a file S.new that
 * was left there, and writes lines `call FILE WORD ..` for a shell, the same for the same seed.
 */
#include <errno.h>
#include <stdbool.h>
#include <stdio.h>
#include <stdlib.h>
#include <string.h>

#include "kernel.h"
#include "settings.h"

enum { ROOM = 8192, LONGEST_CONTENTS = 20000, LETTERS = 52 };

static uint64_t state;
static uint8_t contents[LONGEST_CONTENTS];
static size_t length;

/* The numbers are those of the known generator splitmix64. */
static unsigned below(unsigned end)
{
    uint64_t z = state += UINT64_C(0x9e3779b97f4a7c15);

    z = (z ^ z >> 30) * UINT64_C(0xbf58476d1ce4e5b9);
    z = (z ^ z >> 27) * UINT64_C(0x94d049bb133111eb);
    return (unsigned)((z ^ z >> 31) >> 16) % end;
}

static bool chance(unsigned percent)
{
    return below(100) < percent;
}

static unsigned from_to(unsigned low, unsigned high)
{
    return low + below(high - low + 1);
}

/* Bounds come often. */
static unsigned some_of(unsigned low, unsigned high)
{
    unsigned choice = below(10);

    return choice < 2 ? low : choice < 4 ? high : from_to(low, high);
}

static char some_letter(void)
{
    static const char letters[] = "ABCDEFGHIJKLMNOPQRSTUVWXYZabcdefghijklmnopqrstuvwxyz";

    return chance(30) ? "AZaz"[below(4)] : letters[below(LETTERS)];
}

/* A word in quotes of the shell. */
static void write_word(const char *word)
{
    fputs(" '", stdout);
    for (; *word != '\0'; word++)
        if (*word == '\'')
            fputs("'\\''", stdout);
        else
            putchar(*word);
    putchar('\'');
}

static void write_number(unsigned number)
{
    char word[16];

    snprintf(word, sizeof word, "%u", number);
    write_word(word);
}

/* ---- the words of a call, each seldom spoilt */

static unsigned spoilt;  /* percent of the words that are no number */
static unsigned wrong;   /* percent of the numbers that are out of range */

/* A word that is no number, or one that is too large. */
static void write_no_number(unsigned highest)
{
    static const char *const words[] = {
        "", "x", "-1", "+1", "1.", " 1", "1 ", "0x10", "1e1", "-", "12a", "a12", "\xc5\xbc", "1,2",
        "99999999999999999999999", "4294967297", "18446744073709551617", "'", "\t7", "--", "*"
    };

    if (chance(35))
        write_number(highest + 1);
    else
        write_word(words[below(sizeof words / sizeof words[0])]);
}

/* A number with or without zeros before it. */
static void write_value(unsigned number, unsigned highest)
{
    char word[48];

    if (chance(spoilt)) {
        write_no_number(highest);
        return;
    }
    if (chance(4)) {
        snprintf(word, sizeof word, "%s%u", chance(50) ? "0" : "0000000000000000000000000", number);
        write_word(word);
        return;
    }
    write_number(number);
}

static void write_byte(unsigned number)
{
    write_value(number, 255);
}

/* Twelve letters are the most; no letters are `-` or an empty word. */
static void write_label(void)
{
    static const char *const odd[] = {
        "A-b", "--", "Ab1", "@", "[", "`", "{", "Z[", "a{b", " ", "A b", "-A", "A-", "\xc5\xbc", "Pozna\xc5\x84",
        "abcdefghijkl1", "ABCDEFGHIJKLM", "-------------", "abcdefghij\xc5\xbc", "abcdefghijk\xc5\xbc", "_", "'", "0"
    };
    char word[16];
    unsigned letters = some_of(1, LABEL_BYTES);

    if (chance(20)) {
        write_word(chance(50) ? "-" : "");
    } else if (chance(12)) {
        write_word(odd[below(sizeof odd / sizeof odd[0])]);
    } else {
        letters += chance(3) ? LABEL_BYTES : 0;  /* sometimes too many */
        letters = letters > sizeof word - 1 ? sizeof word - 1 : letters;
        for (unsigned i = 0; i < letters; i++)
            word[i] = some_letter();
        word[letters] = '\0';
        write_word(word);
    }
}

static unsigned some_value(unsigned low, unsigned high, unsigned beside)
{
    return chance(wrong) ? beside : some_of(low, high);
}

static unsigned some_address(void)
{
    static const uint16_t odd[] = { 8192, 8193, 65535, 32768 };

    if (chance(wrong))
        return odd[below(4)];
    return some_of(0, 8191);
}

/* Names from 2 on, turned by some number; seldom one that is none or stands twice. */
static void write_groups(unsigned groups)
{
    static const uint8_t odd[] = { 0, 1, 1, 16, 16, 255 };
    unsigned turn = below(MOST_ENTRIES);

    for (unsigned i = 0; i < groups; i++) {
        unsigned name = 2 + (i + turn) % MOST_ENTRIES;

        if (chance(wrong))
            name = chance(50) ? from_to(2, 15) : odd[below(sizeof odd)];
        write_byte(name);
        write_byte(some_value(1, 15, chance(50) ? 0 : 16));
        write_byte(some_value(0, 15, 16));
        write_value(some_address(), 65535);
    }
}

static void write_head(unsigned version)
{
    static const uint8_t lines[] = { 15, 48, 15, 48 };

    write_byte(version);
    write_byte(chance(wrong) ? lines[below(4)] : some_of(16, 47));
    write_byte(chance(wrong) ? 0 : some_of(1, 255));
    if (version >= 2)
        write_byte(some_of(0, 255));
    if (version >= 3)
        write_label();
}

static unsigned some_version(void)
{
    static const uint8_t odd[] = { 0, 4, 5, 255 };

    return chance(12) ? odd[below(4)] : from_to(1, 3);
}

static unsigned some_groups(void)
{
    static const uint16_t many[] = { 15, 15, 16, 17, 100, 254, 255, 256, 257 };

    if (chance(8))
        return many[below(sizeof many / sizeof many[0])];
    return chance(50) ? below(4) : from_to(0, MOST_ENTRIES);
}

/* Besides S another file, which is not there before, and some that cannot be. */
static void begin_call(void)
{
    unsigned choice = below(100);

    fputs("call", stdout);
    write_word(choice < 2 ? "none/S" : choice < 4 ? "S/x" : choice < 40 ? "T" : "S");
}

static void call_show(void)
{
    begin_call();
    putchar('\n');
}

/* About one fault in a call that has any, of one of the two kinds. */
static void set_faults(unsigned groups)
{
    unsigned choice = below(10), percent = 100 / (4 + 4 * (groups < MOST_ENTRIES ? groups : MOST_ENTRIES));

    spoilt = choice < 2 ? percent : 0;
    wrong = choice >= 2 && choice < 7 ? percent : 0;
}

static void call_write(void)
{
    unsigned version = some_version(), groups = some_groups();

    set_faults(groups);
    begin_call();
    write_head(version);
    write_groups(groups);
    putchar('\n');
}

/* Too few words, or a group that is not whole. */
static void call_incomplete(void)
{
    unsigned version = some_version(), left = from_to(1, 3);

    spoilt = wrong = 0;
    begin_call();
    switch (below(4)) {
    case 0:
        write_byte(version);
        break;
    case 1:
        write_byte(version);
        write_byte(16);
        break;
    case 2:  /* the head of a lower version */
        write_byte(from_to(2, 5));
        write_byte(16);
        write_byte(5);
        if (chance(50))
            write_byte(7);
        break;
    default:
        write_head(version);
        write_groups(below(3));
        for (; left > 0; left--)
            write_byte(2);
        break;
    }
    putchar('\n');
}

/* A good write of a block of so many bytes, for a file that leaves as much room or one byte less. */
static void call_fitting(unsigned version, unsigned groups)
{
    spoilt = wrong = 0;
    fputs("call 'S'", stdout);
    write_byte(version);
    write_byte(16);
    write_byte(5);
    if (version >= 2)
        write_byte(7);
    if (version >= 3)
        write_word("Poznan");
    write_groups(groups);
    putchar('\n');
}

static void some_call(void)
{
    unsigned choice = below(100);

    if (choice < 30)
        call_show();
    else if (choice < 85)
        call_write();
    else if (choice < 97)
        call_incomplete();
    else
        puts("call");
}

/* ---- the file that is there before */

static void add_block(unsigned version, unsigned entries)
{
    uint8_t block[LONGEST_BLOCK] = { (uint8_t)version, (uint8_t)entries, (uint8_t)from_to(16, 47) };
    size_t end = head_length(version);

    block[AT_DIVIDER] = (uint8_t)from_to(1, 255);
    block[AT_SITE] = (uint8_t)(version >= 2 ? below(256) : 0);
    for (unsigned i = 0, letters = below(LABEL_BYTES + 1); version == 3 && i < letters; i++)
        block[AT_LABEL + i] = (uint8_t)some_letter();
    for (unsigned i = 0; i < entries; i++, end += ENTRY_BYTES) {
        block[end + AT_NAME] = (uint8_t)(i + 2);
        block[end + AT_PRIORITY] = (uint8_t)from_to(1, 15);
        block[end + AT_W] = (uint8_t)below(16);
        block[end + AT_HIGH] = (uint8_t)below(32);
        block[end + AT_LOW] = (uint8_t)below(256);
    }
    length = kernel_write_settings(contents, ROOM, length, block, end).written;
}

static void some_block(void)
{
    unsigned version = from_to(1, 3);

    add_block(version, some_of(0, MOST_ENTRIES));
}

/* A good file of so many bytes: anything, then the last block and its trailer. */
static void fill_up(size_t wanted)
{
    uint8_t good[LONGEST_BLOCK + TRAILER_BYTES];
    size_t end;

    length = 0;
    some_block();
    end = length;
    memcpy(good, contents, end);
    for (size_t i = 0; i + end < wanted; i++)
        contents[i] = (uint8_t)below(256);
    memcpy(contents + wanted - end, good, end);
    length = wanted;
}

/* A byte of the newest block or the trailer changed, by one or to anything, or the end cut. */
static void damage(void)
{
    size_t newest, at = (size_t)(newest_block(contents, length, &newest) - contents);
    unsigned choice = below(6);

    if (chance(40))
        at = length - TRAILER_BYTES + below(TRAILER_BYTES);
    else if (chance(80))
        at += below((unsigned)newest);

    if (choice < 1)
        length -= from_to(1, 3);
    else if (choice < 2)
        contents[at]++;
    else if (choice < 3)
        contents[at]--;
    else if (choice < 4)
        contents[at] = (uint8_t)(chance(50) ? 0 : 255);
    else
        contents[at] = (uint8_t)below(256);
}

/* False if there is to be no file. */
static bool make_contents(unsigned kind)
{
    if (kind < 2)
        return false;
    for (unsigned left = from_to(1, 3); kind >= 4 && kind < 13 && left > 0; left--)
        some_block();
    if (kind >= 8 && kind < 13)
        damage();
    if (kind == 13)
        for (length = from_to(1, 12); length > 0 && contents[length - 1] == 0;)
            contents[length - 1] = (uint8_t)from_to(1, 4);
    if (kind == 14)
        fill_up(ROOM);
    if (kind == 15)
        fill_up(chance(60) ? ROOM + 1 : chance(50) ? ROOM + 2 : LONGEST_CONTENTS);
    return true;
}

static bool write_file(const char *folder, const char *name)
{
    char path[4096];
    FILE *out;
    bool well;

    snprintf(path, sizeof path, "%s/%s", folder, name);
    out = fopen(path, "wb");
    if (out == NULL)
        return false;
    well = fwrite(contents, 1, length, out) == length;
    return fclose(out) == 0 && well;
}

/* A file into which one more block goes just so, or just not. */
static void make_fitting(void)
{
    unsigned version = from_to(1, 3), groups = below(MOST_ENTRIES + 1);

    fill_up(ROOM - block_length(version, groups) + below(2));
    call_fitting(version, groups);
    call_show();
    call_fitting(version, groups);
}

int main(int argc, char **argv)
{
    unsigned kind;
    bool there = true, well = true;
    char *end = NULL;

    if (argc != 3 || (state = strtoull(argv[1], &end, 10), *argv[1] == '\0' || *end != '\0')) {
        fprintf(stderr, "usage: %s SEED FOLDER\n", argv[0]);
        return 2;
    }
    state = state * 2 + 1;
    kind = below(18);
    if (kind >= 16)
        make_fitting();
    else
        there = make_contents(kind);
    if (there)
        well = write_file(argv[2], "S");
    if (chance(15))
        well = write_file(argv[2], "S.new") && well;
    for (unsigned left = from_to(8, 20); left > 0; left--)
        some_call();
    call_show();
    if (!well)
        perror(argv[2]);
    return well && fflush(stdout) == 0 && !ferror(stdout) ? 0 : 1;
}
