/* Lines for the reader of scripts: not understood, not allowed, empty, comments, long ones. */
#include <stdio.h>
#include <string.h>

#include "generate.h"

/* Each of these is not understood. */
static const char *const odd[] = {
    "fresh", "fresh 16", "fresh 16 1 2", "step 1", "step step", "Step", "STEP", "ste", "steps", "interrupt",
    "interrupt 16 0 0", "registers 1", "set", "set 1 2 3 4 5 6", "set 1 2 3 4 5 6 7 8", "judge 0", "put", "put 400",
    "break", "break 400", "length", "length 1 2", "words", "words 5", "words 5 1 1", "changes 1", "show 1",
    "put 400 65536", "put 65536 1", "break 8000 99999", "length 65536", "words 65536 1", "interrupt 65536",
    "fresh 65536 1", "put -1 1", "put 400 -1", "put 400 +1", "put 400 1.5", "put 400 0x10", "put 400 1,2",
    "put 400 1;", "put 4 00 1 x", "interrupt 1 6x", "interrupt 99999999999999999999999999",
    "set 1 1 1 1 1 1 4294967296", "words 18446744073709551616 1", "step\t", "\tstep", "put\t400 1", "put 400\t1",
    "step\r", "\t", "'step'", "1", "42 fresh", "step;changes", "fresh16 1", "brake 1 2", "\xc5\xbc", "judge judge",
    "burst 65536", "burst 16 0 16 65536", "burst 65536 0 x", "burst 16 -0", "burst 16,0", "Burst", "BURST 16 0",
    "bursts 16 0", "burs", "burst16 0", "burst\t16 0", "burst 16\t0", "burst 16 0 x", "burst 16 0\r", "burst burst",
    "burst 16.0", "burst 0x10 0", "burst +16 0", "burst 99999999999999999999", "burst 16 0 99999", "burst 16 0; step",
    "settings", "settings 1000", "settings 1000 13 1", "settings 65536 1", "settings 1000 65536", "settings 1000 -1",
    "Settings 1000 13", "setting 1000 13", "settings1000 13", "settings 1000 #13", "settings 1000 x",
    "settings 1000\t13", "settings 1000 13\r", "settings 99999999999999999999 0", "write", "write 1000 100 13 2000",
    "write 1000 100 13 2000 5 6", "write 65536 0 0 0 0", "write 0 65536 0 0 0", "write 0 0 65536 0 0",
    "write 0 0 0 65536 0", "write 0 0 0 0 65536", "write 1000 100 13 2000 5x", "writes 1000 100 13 2000 5",
    "WRITE 1000 100 13 2000 5", "write 1000 100 13 2000 #5", "write 1000,100 13 2000 5", "write 1 2 3", "write 1",
    "save", "save a b", "save #a", "save# a b", "save 1 2 # 3", "SAVE a", "saves a", "save\ta", "savea", "save a b c",
    "interrupt #16", "put 400 #1", "set 1 2 3 4 5 6# 7", "fresh 16 #1", "words 400 #", "length #5"
};

/* Each of these is understood and not allowed, and changes nothing. */
static const char *const forbidden[] = {
    "put 128 1", "put 351 1", "put 127 1 2", "put 350 1 2 3", "put 7552 1", "put 7551 1 2", "put 8191 1",
    "put 8192 1", "put 8199 1", "put 8200 1", "put 65535 1", "put 400 256", "put 400 1 2 65535", "put 31 1 256",
    "break 8200 1", "break 8199 1 2", "break 65535 1", "break 400 256", "break 8000 1 2 999", "length 8201",
    "length 65535", "words 8200 1", "words 8199 2", "words 0 0", "words 0 33", "words 65535 32", "words 8169 32",
    "settings 8200 1", "settings 8201 0", "settings 0 8201", "settings 8199 2", "settings 65535 65535",
    "settings 8192 9", "settings 1 65535", "write 8200 1 0 0 0", "write 0 8201 0 0 0", "write 0 0 0 8200 1",
    "write 8201 0 0 0 0", "write 0 0 0 8201 0", "write 0 0 0 0 8201", "write 8192 9 0 0 0", "write 0 0 0 8192 9",
    "write 65535 65535 65535 65535 65535", "write 0 1 2 65535 1", "write 8199 2 1 400 4", "write 400 8 0 8197 4",
    "words 400 65535", "words 8200 0", "put 100 1 1 1 1 1 1 1 1 1 1 1 1 1 1 1 1 1 1 1 1 1 1 1 1 1 1 1 1 1"
};

/* Each of these does nothing at all. */
static const char *const nothing[] = { "", " ", "      ", "#", "# step", "   # put 400 1", "####", "#\t\xff" };

static void not_understood(const char *line)
{
    if (full())
        return;
    order_raw(line);
    mark(MARK_NOT_UNDERSTOOD);
}

/* `put` or `break` with so many values; more than 32 are not understood. */
static void too_many(void)
{
    char line[300];
    unsigned count = from_to(33, 60);
    int length = snprintf(line, sizeof line, "%s 400", chance(50) ? "put" : "break");

    for (unsigned i = 0; i < count; i++)
        length += snprintf(line + length, sizeof line - (size_t)length, " %u", (unsigned)below(10));
    not_understood(line);
}

/* A line that would be understood if it had not over 255 characters. */
static void too_long(void)
{
    char line[600];
    size_t length = chance(60) ? 256 : from_to(256, 599);
    const char *start = chance(50) ? "step" : "changes";
    char filler = chance(50) ? ' ' : '#';

    memset(line, filler, length);
    line[length] = '\0';
    if (chance(80))
        memcpy(line, start, strlen(start));
    not_understood(line);
}

/* A comment of 255 characters or fewer does nothing. */
static void longest_comment(void)
{
    char line[256];

    memset(line, chance(50) ? '#' : ' ', 255);
    line[chance(70) ? 255 : 254] = '\0';
    line[0] = '#';
    order_raw(line);
}

/* Each of these is a burst of the numbers beside it. */
static const struct {
    const char *line;
    struct list list;
} bursts[] = {
    { "burst", { 0, { 0 } } },             { "   burst   ", { 0, { 0 } } },         { "burst#", { 0, { 0 } } },
    { "burst #16 0", { 0, { 0 } } },       { "burst# 16 0", { 0, { 0 } } },         { "burst 16 #0", { 1, { 16 } } },
    { "burst 16 0#", { 2, { 16, 0 } } },   { "burst  0016   000", { 2, { 16, 0 } } },
    { "burst 65535", { 1, { 65535 } } },
    { "burst 15 0 # 1", { 2, { 15, 0 } } }, { "burst 0 0", { 2, { 0, 0 } } },        { "burst 47 1", { 2, { 47, 1 } } },
    { "burst 48 31 48 32", { 4, { 48, 31, 48, 32 } } }, { " burst 65535 65535", { 2, { 65535, 65535 } } },
    { "burst 00000000000000000000000000000000000050 31", { 2, { 50, 31 } } }
};

/* More spaces between the words and zeros before the numbers, up to so many characters. */
static void stretch(char *text, size_t wanted)
{
    for (size_t length = strlen(text); length < wanted; length++) {
        size_t from = below((uint32_t)length);
        bool zero = chance(50);

        while (text[from] != ' ' && text[from] != '\0')
            from++;
        zero = zero && text[from] == ' ' && text[from + 1] >= '0' && text[from + 1] <= '9';
        from += zero;
        memmove(text + from + 1, text + from, length - from + 1);
        text[from] = zero ? '0' : ' ';
    }
}

/* A burst in a line of 255 characters, which is carried out, or of 256, which is not understood. */
static void long_burst(void)
{
    struct list list = { 0 };
    unsigned count = chance(70) ? 2 * from_to(1, MOST_PAIRS) : chance(50) ? LONGEST_LIST : from_to(1, 80);
    char line[LONGEST_LINE + 2];

    for (; list.count < count; list.count++)
        list.number[list.count] = (uint16_t)(list.count % 2 == 1 ? 0 : count > 80 ? below(10) : from_to(16, 50));
    list.count = burst_text(&list, line);
    if (chance(50)) {
        stretch(line, LONGEST_LINE);
        order_burst_as(line, &list);
    } else {
        stretch(line, LONGEST_LINE + 1);
        not_understood(line);
    }
    maybe_changes(60);
}

static void burst_line(void)
{
    unsigned i = below(sizeof bursts / sizeof bursts[0]);

    if (chance(40))
        long_burst();
    else
        order_burst_as(bursts[i].line, &bursts[i].list);
}

static void harmless_order(void)
{
    uint8_t values[LONGEST_PUT];
    unsigned choice = below(6);
    bool first = chance(50);

    for (unsigned i = 0; i < LONGEST_PUT; i++)
        values[i] = (uint8_t)below(256);
    switch (choice) {
    case 0: order_put(352 + below(100), values, LONGEST_PUT); break;
    case 1: order_put(7520, values, LONGEST_PUT); break;
    case 2: order_words(first ? 8168 : 8199, chance(50) ? 32 : 1); break;
    case 3: order_put(0, values, LONGEST_PUT); break;
    case 4: order_break(8198, values, 2); break;
    default: order_put(100, values, first ? 28 : 29); break;
    }
    maybe_changes(50);
}

void scene_lines(void)
{
    for (unsigned left = from_to(1, 6); left > 0 && !full(); left--) {
        unsigned choice = below(100);

        if (choice < 45) {
            not_understood(odd[below(sizeof odd / sizeof odd[0])]);
        } else if (choice < 65) {
            order_raw(forbidden[below(sizeof forbidden / sizeof forbidden[0])]);
            mark(MARK_NOT_ALLOWED);
        } else if (choice < 75) {
            order_raw(nothing[below(sizeof nothing / sizeof nothing[0])]);
        } else if (choice < 80) {
            too_many();
        } else if (choice < 86) {
            too_long();
        } else if (choice < 89) {
            longest_comment();
        } else if (choice < 95) {
            burst_line();
        } else {
            harmless_order();
        }
    }
}
