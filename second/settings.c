/* Settings: what is good, the fresh start from a file, and writing to one. */
#include "settings.h"

#include <string.h>

#include "machine.h"

static const struct verdict good = { 0, 0 };

static struct verdict bad(unsigned number)
{
    return (struct verdict){ .number = number };
}

static struct verdict too_new(unsigned version)
{
    return (struct verdict){ .number = REFUSE_VERSION, .version = version };
}

/* "a head has 4, 5 or 17 bytes"; a version over 3 is refused before its head is asked for. */
size_t head_length(unsigned version)
{
    if (version <= 1)
        return 4;
    return version == 2 ? 5 : 17;
}

size_t block_length(unsigned version, unsigned entries)
{
    return head_length(version) + ENTRY_BYTES * (size_t)entries;
}

static bool is_letter(unsigned byte)
{
    return (byte >= 'A' && byte <= 'Z') || (byte >= 'a' && byte <= 'z');
}

/* "letters A-Z, a-z, then zeros to its end; none or twelve letters are fine" */
static bool is_label(const uint8_t *label)
{
    unsigned i = 0;

    while (i < LABEL_BYTES && is_letter(label[i]))
        i++;
    while (i < LABEL_BYTES && label[i] == 0)
        i++;
    return i == LABEL_BYTES;
}

static bool layout_is_good(const uint8_t *block, size_t length)
{
    if (block[AT_VERSION] == 0 || length == 1)
        return false;
    if (block[AT_COUNT] > MOST_ENTRIES || length != block_length(block[AT_VERSION], block[AT_COUNT]))
        return false;
    return block[AT_VERSION] < 3 || is_label(block + AT_LABEL);
}

/* "2-15, 1-15, 0-15, 0-8191" */
static bool entry_is_good(const uint8_t *entry)
{
    return entry[AT_NAME] >= 2 && entry[AT_NAME] <= HIGHEST_NAME
        && entry[AT_PRIORITY] >= 1 && entry[AT_PRIORITY] <= 15
        && entry[AT_W] <= 15
        && entry[AT_HIGH] <= 31;
}

static const uint8_t *entry_of(const uint8_t *block, unsigned i)
{
    return block + head_length(block[AT_VERSION]) + ENTRY_BYTES * (size_t)i;
}

static bool name_stands_before(const uint8_t *block, unsigned i)
{
    for (unsigned other = 0; other < i; other++)
        if (entry_of(block, other)[AT_NAME] == entry_of(block, i)[AT_NAME])
            return true;
    return false;
}

static bool values_are_good(const uint8_t *block)
{
    if (block[AT_LINE] < 16 || block[AT_LINE] > 47 || block[AT_DIVIDER] == 0)
        return false;
    for (unsigned i = 0; i < block[AT_COUNT]; i++)
        if (!entry_is_good(entry_of(block, i)) || name_stands_before(block, i))
            return false;
    return true;
}

struct verdict verdict_of_block(const uint8_t *block, size_t length)
{
    if (length == 0)
        return bad(REFUSE_LAYOUT);
    if (block[AT_VERSION] > OWN_VERSION)
        return too_new(block[AT_VERSION]);
    if (!layout_is_good(block, length))
        return bad(REFUSE_LAYOUT);
    return values_are_good(block) ? good : bad(REFUSE_VALUE);
}

/* What of 28 is the trailer's: itself, its distance, and that the block begins with its version and count. */
static bool trailer_is_good(const uint8_t *trailer, size_t before)
{
    size_t distance = trailer[AT_DISTANCE] * (size_t)256 + trailer[AT_DISTANCE + 1];
    unsigned version = trailer[AT_LAST_VERSION], count = trailer[AT_LAST_COUNT];

    if (version == 0 || count > MOST_ENTRIES)
        return false;
    if (distance != block_length(version, count) || distance > before)
        return false;
    return trailer[AT_VERSION - (ptrdiff_t)distance] == version && trailer[AT_COUNT - (ptrdiff_t)distance] == count;
}

const uint8_t *newest_block(const uint8_t *file, size_t file_length, size_t *length)
{
    const uint8_t *trailer = file + file_length - TRAILER_BYTES;

    *length = block_length(trailer[AT_LAST_VERSION], trailer[AT_LAST_COUNT]);
    return trailer - *length;
}

struct verdict verdict_of_file(const uint8_t *file, size_t length)
{
    const uint8_t *trailer, *block;
    size_t newest;

    if (length < TRAILER_BYTES)
        return bad(REFUSE_LAYOUT);
    trailer = file + length - TRAILER_BYTES;
    if (trailer[AT_LAST_VERSION] > OWN_VERSION)
        return too_new(trailer[AT_LAST_VERSION]);
    if (!trailer_is_good(trailer, length - TRAILER_BYTES))
        return bad(REFUSE_LAYOUT);
    block = newest_block(file, length, &newest);
    return verdict_of_block(block, newest);
}

static struct answer refused(struct verdict verdict)
{
    return (struct answer){ .kind = ANSWER_REFUSED, .number = verdict.number, .version = verdict.version };
}

/*
 * "what CRP does when it is done, as run by processor 1, but that LR of processor 1 stays".  Its tests are not made:
 * an entry may be above processor 1.
 */
static void create_entry(uint8_t *m, const uint8_t *entry)
{
    unsigned page = take_page(m, 1);
    unsigned address = entry[AT_HIGH] * 256u + entry[AT_LOW];

    set_up_processor(m, page, entry[AT_NAME], entry[AT_PRIORITY], entry[AT_W], address);
}

struct answer kernel_fresh_from_settings(uint8_t *memory, size_t length, const uint8_t *file, size_t file_length)
{
    struct verdict verdict;
    struct answer answer;
    const uint8_t *block;
    size_t newest;

    if (length != WORDS)
        return refused(bad(REFUSE_LENGTH));
    verdict = verdict_of_file(file, file_length);
    if (verdict.number != 0)
        return refused(verdict);
    block = newest_block(file, file_length, &newest);
    answer = kernel_fresh(memory, length, block[AT_LINE], block[AT_DIVIDER]);
    for (unsigned i = 0; i < block[AT_COUNT]; i++)
        create_entry(memory, entry_of(block, i));
    return answer;
}

/* "the greater number of the file's refusal and the block's; of two 29 the file's version" */
static struct verdict verdict_of_both(const uint8_t *file, size_t used, const uint8_t *block, size_t length)
{
    struct verdict of_file = used == 0 ? good : verdict_of_file(file, used);
    struct verdict of_block = verdict_of_block(block, length);

    return of_block.number > of_file.number ? of_block : of_file;
}

static void put_trailer(uint8_t *trailer, const uint8_t *block, size_t length)
{
    trailer[AT_DISTANCE] = (uint8_t)(length / 256);
    trailer[AT_DISTANCE + 1] = (uint8_t)(length % 256);
    trailer[AT_LAST_VERSION] = block[AT_VERSION];
    trailer[AT_LAST_COUNT] = block[AT_COUNT];
}

struct answer kernel_write_settings(uint8_t *file, size_t room, size_t used, const uint8_t *block, size_t length)
{
    struct verdict verdict;
    size_t start = used == 0 ? 0 : used - TRAILER_BYTES;

    if (used > room)
        return refused(bad(REFUSE_ROOM));
    verdict = verdict_of_both(file, used, block, length);
    if (verdict.number != 0)
        return refused(verdict);
    if (start + length + TRAILER_BYTES > room)
        return refused(bad(REFUSE_ROOM));
    memcpy(file + start, block, length);
    put_trailer(file + start + length, block, length);
    return (struct answer){ .kind = ANSWER_WRITTEN, .written = start + length + TRAILER_BYTES };
}
