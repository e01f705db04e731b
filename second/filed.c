/* Counting what settings have reached: files and blocks by version and count, refusals, rooms and damaged bytes. */
#include <stdio.h>

#include "files.h"

enum { NUMBERS = 4, GOOD = 0, OF_26, OF_28, OF_29, VERSIONS = 4 };
enum feat {
    FEAT_START, FEAT_OLDER, FEAT_REWRITTEN, FEAT_BROKEN, FEAT_BROKEN_REFUSED, FEAT_IDLE, FEAT_20_GOOD, FEAT_20_BAD,
    FEAT_REFUSED_26, FEAT_REFUSED_28, FEAT_REFUSED_29, FEAT_EMPTY_START, FEAT_WRITTEN, FEAT_EMPTY_WRITTEN,
    FEAT_EXACT, FEAT_IN_PLACE, FEAT_USED_OVER, FEAT_USED_OVER_BAD, FEAT_ROOM, FEAT_ROOM_BY_ONE, FEAT_TWO_VERSIONS,
    FEAT_WRONG_LENGTH, FEAT_PAST, FEAT_AT_END, FEATS
};

static const char *const feat_names[FEATS] = {
    "starts from settings", "starts from settings with bytes before the newest block",
    "starts from settings that were written", "starts from settings on broken memory",
    "settings refused on broken memory", "starts from settings while idle",
    "settings refused by 20 with a good file", "settings refused by 20 with a bad file", "settings refused by 26",
    "settings refused by 28", "settings refused by 29", "settings refused with an empty file", "settings written",
    "settings written to an empty file", "settings written with no byte of room to spare",
    "settings written over the block itself", "writes refused by 35 with more in use than room",
    "writes refused by 35 with more in use than room and a bad block", "writes refused by 35 for room",
    "writes refused by 35 for one byte of room", "writes refused by 29 with two versions",
    "settings written while the memory has a wrong length",
    "settings orders with a part past 8,200", "settings orders with a part up to 8,200"
};
static const char *const number_names[NUMBERS] = { "good", "26", "28", "29" };
static const char *const head_names[] = { "version", "count", "line", "divider", "site" };
static const char *const trailer_names[] = { "distance high", "distance low", "version", "count" };
static const char *const entry_names[ENTRY_BYTES] = { "name", "priority", "W", "address high", "address low" };

static unsigned long feats[FEATS], done_with[VERSIONS][MOST_ENTRIES + 1], written_with[VERSIONS][MOST_ENTRIES + 1];
static unsigned long behind[VERSIONS][VERSIONS], both[NUMBERS][NUMBERS], spots[SPOTS];
static unsigned written_at, written_length;

unsigned long settings_done(unsigned version, unsigned entries)
{
    return done_with[version][entries];
}

unsigned long settings_written(unsigned version, unsigned entries)
{
    return written_with[version][entries];
}

unsigned long damaged_at(unsigned spot)
{
    return spots[spot];
}

void reach_damage(const struct file *f)
{
    for (unsigned spot = 0; spot < SPOTS; spot++)
        spots[spot] += f->damaged >> spot & 1u;
}

static unsigned index_of(struct verdict verdict)
{
    switch (verdict.number) {
    case REFUSE_VALUE: return OF_26;
    case REFUSE_LAYOUT: return OF_28;
    case REFUSE_VERSION: return OF_29;
    default: return GOOD;
    }
}

void reach_parts(unsigned end, bool allowed)
{
    feats[FEAT_PAST] += !allowed;
    feats[FEAT_AT_END] += allowed && end == BUFFER;
}

static void reach_start(const uint8_t *before, unsigned address, const uint8_t *file, unsigned length)
{
    size_t newest;
    const uint8_t *block = newest_block(file, length, &newest);

    done_with[block[AT_VERSION]][block[AT_COUNT]]++;
    feats[FEAT_START]++;
    feats[FEAT_OLDER] += newest + TRAILER_BYTES < length;
    feats[FEAT_REWRITTEN] += address == written_at && length == written_length;
    feats[FEAT_BROKEN] += !well_formed(before);
    feats[FEAT_IDLE] += well_formed(before) && before[RUNNING_PAGE] == 0;
}

void reach_settings(const uint8_t *before, unsigned address, const uint8_t *file, unsigned length,
                    const struct answer *answer)
{
    struct verdict verdict = verdict_of_file(file, length);

    if (answer->kind == ANSWER_DONE) {
        reach_start(before, address, file, length);
        return;
    }
    if (answer->number == REFUSE_LENGTH) {
        feats[verdict.number == 0 ? FEAT_20_GOOD : FEAT_20_BAD]++;
        return;
    }
    feats[FEAT_REFUSED_26] += answer->number == REFUSE_VALUE;
    feats[FEAT_REFUSED_28] += answer->number == REFUSE_LAYOUT;
    feats[FEAT_REFUSED_29] += answer->number == REFUSE_VERSION;
    feats[FEAT_EMPTY_START] += length == 0;
    feats[FEAT_BROKEN_REFUSED] += !well_formed(before);
}

static void reach_written(const uint8_t *file, const struct writing *w, const uint8_t *block)
{
    unsigned start = w->used == 0 ? 0 : w->used - TRAILER_BYTES, after = start + w->length + TRAILER_BYTES;
    unsigned old = w->used == 0 ? 0 : file[w->used - TRAILER_BYTES + AT_LAST_VERSION];

    written_with[block[AT_VERSION]][block[AT_COUNT]]++;
    behind[old][block[AT_VERSION]]++;
    feats[FEAT_WRITTEN]++;
    feats[FEAT_EMPTY_WRITTEN] += w->used == 0;
    feats[FEAT_EXACT] += after == w->room;
    feats[FEAT_IN_PLACE] += w->block < w->file + after && w->file + start < w->block + w->length;
    feats[FEAT_WRONG_LENGTH] += lent != WORDS;
    written_at = w->file;
    written_length = after;
}

void reach_write(const uint8_t *file, const struct writing *w, const uint8_t *block, const struct answer *answer)
{
    struct verdict of_block = verdict_of_block(block, w->length), of_file = { 0, 0 };

    if (w->used > w->room) {
        feats[FEAT_USED_OVER]++;
        feats[FEAT_USED_OVER_BAD] += of_block.number != 0;
        return;
    }
    if (answer->kind == ANSWER_WRITTEN) {
        reach_written(file, w, block);
        return;
    }
    if (answer->number == REFUSE_ROOM) {
        feats[FEAT_ROOM]++;
        feats[FEAT_ROOM_BY_ONE] += w->room + 1 == (w->used == 0 ? TRAILER_BYTES : w->used) + w->length;
        return;
    }
    if (w->used > 0)
        of_file = verdict_of_file(file, w->used);
    both[index_of(of_file)][index_of(of_block)]++;
    feats[FEAT_TWO_VERSIONS] += of_file.number == REFUSE_VERSION && of_block.number == REFUSE_VERSION
                             && of_file.version != of_block.version;
}

static void write_spots(void)
{
    for (unsigned i = 0; i < TRAILER_BYTES; i++)
        printf("# reached trailers damaged in %s: %lu\n", trailer_names[i], spots[i]);
    for (unsigned i = 0; i < AT_LABEL; i++)
        printf("# reached blocks damaged in %s: %lu\n", head_names[i], spots[SPOT_HEAD + i]);
    for (unsigned i = 0; i < LABEL_BYTES; i++)
        printf("# reached blocks damaged in label byte %u: %lu\n", i + 1, spots[SPOT_HEAD + AT_LABEL + i]);
    for (unsigned i = 0; i < ENTRY_BYTES; i++)
        printf("# reached entries damaged in %s: %lu\n", entry_names[i], spots[SPOT_ENTRY + i]);
}

static void write_forms(const char *what, unsigned long forms[VERSIONS][MOST_ENTRIES + 1])
{
    for (unsigned version = 1; version < VERSIONS; version++) {
        unsigned long sum = 0;

        for (unsigned n = 0; n <= MOST_ENTRIES; n++)
            sum += forms[version][n];
        printf("# reached %s, version %u: %lu\n", what, version, sum);
        for (unsigned n = 0; n <= MOST_ENTRIES; n++)
            printf("# reached %s, version %u with %u entries: %lu\n", what, version, n, forms[version][n]);
    }
}

void write_settings_reached(void)
{
    for (unsigned n = 0; n < FEATS; n++)
        printf("# reached %s: %lu\n", feat_names[n], feats[n]);
    write_forms("starts from settings", done_with);
    write_forms("settings written", written_with);
    for (unsigned old = 1; old < VERSIONS; old++)
        for (unsigned new = 1; new < VERSIONS; new++)
            printf("# reached version %u written behind version %u: %lu\n", new, old, behind[old][new]);
    for (unsigned file = 0; file < NUMBERS; file++)
        for (unsigned block = 0; block < NUMBERS; block++)
            if (file + block > 0)
                printf("# reached writes refused with a file of %s and a block of %s: %lu\n", number_names[file],
                       number_names[block], both[file][block]);
    write_spots();
}
