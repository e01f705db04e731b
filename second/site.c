/*
 * The technician's program: shows the newest settings of a file, or writes a block behind them.
 * Standard output has answers only.
 */
#include <errno.h>
#include <stdbool.h>
#include <stdio.h>
#include <stdlib.h>
#include <string.h>

#include "disk.h"
#include "machine.h"
#include "settings.h"

enum { GROUP = 4, MOST_GROUPS = 255, HIGHEST_ADDRESS = 65535 };

/* A block as the words of the command say it, good or not. */
struct block {
    uint8_t bytes[17 + ENTRY_BYTES * MOST_GROUPS];
    size_t length;
};

static void print_answer(const struct answer *answer)
{
    if (answer->kind == ANSWER_WRITTEN)
        printf("written %zu\n", answer->written);
    else if (answer->number == REFUSE_VERSION)
        printf("refused %u at %u\n", (unsigned)answer->number, (unsigned)answer->version);
    else
        printf("refused %u\n", (unsigned)answer->number);
}

static int complain(const char *name)
{
    perror(name);
    return EXIT_FAILURE;
}

static void print_label(const uint8_t *label)
{
    int letters = 0;

    while (letters < LABEL_BYTES && label[letters] != 0)
        letters++;
    if (letters == 0)
        puts("label -");
    else
        printf("label %.*s\n", letters, (const char *)label);
}

static void print_block(const uint8_t *block)
{
    const uint8_t *entry = block + head_length(block[AT_VERSION]);

    printf("version %u\n", (unsigned)block[AT_VERSION]);
    printf("line %u\n", (unsigned)block[AT_LINE]);
    printf("divider %u\n", (unsigned)block[AT_DIVIDER]);
    if (block[AT_VERSION] >= 2)
        printf("site %u\n", (unsigned)block[AT_SITE]);
    if (block[AT_VERSION] >= 3)
        print_label(block + AT_LABEL);
    for (unsigned i = 0; i < block[AT_COUNT]; i++, entry += ENTRY_BYTES)
        printf("processor %u priority %u W %u at %u\n", (unsigned)entry[AT_NAME], (unsigned)entry[AT_PRIORITY],
               (unsigned)entry[AT_W], entry[AT_HIGH] * 256u + entry[AT_LOW]);
}

static int show(const char *name)
{
    static struct contents contents;
    struct verdict verdict;
    size_t length;

    if (!read_file(name, &contents))
        return complain(name);
    if (contents.too_long)
        verdict = (struct verdict){ .number = REFUSE_ROOM };
    else
        verdict = verdict_of_file(contents.bytes, contents.used);
    if (verdict.number != 0) {
        struct answer answer = { .kind = ANSWER_REFUSED, .number = verdict.number, .version = verdict.version };

        print_answer(&answer);
    } else {
        print_block(newest_block(contents.bytes, contents.used, &length));
    }
    return EXIT_SUCCESS;
}

/* A missing file is an empty one. */
static int write_to(const char *name, const struct block *block)
{
    static struct contents contents;
    struct answer answer = { .kind = ANSWER_REFUSED, .number = REFUSE_ROOM };

    if (!read_file(name, &contents) && errno != ENOENT)
        return complain(name);
    if (!contents.too_long)
        answer = kernel_write_settings(contents.bytes, ROOM, contents.used, block->bytes, block->length);
    if (answer.kind == ANSWER_WRITTEN && !replace_file(name, contents.bytes, answer.written))
        return EXIT_FAILURE;
    print_answer(&answer);
    return EXIT_SUCCESS;
}

/* "Numbers are digits"; leading zeros do no harm, and an empty word is no number. */
static bool read_number(const char *word, unsigned highest, unsigned *number)
{
    *number = 0;
    if (*word == '\0')
        return false;
    for (; *word != '\0'; word++) {
        if (*word < '0' || *word > '9')
            return false;
        *number = *number * 10 + (unsigned)(*word - '0');
        if (*number > highest)
            return false;
    }
    return true;
}

static bool add_byte(struct block *block, const char *word)
{
    unsigned number;

    if (!read_number(word, 255, &number))
        return false;
    block->bytes[block->length++] = (uint8_t)number;
    return true;
}

static bool add_address(struct block *block, const char *word)
{
    unsigned number;

    if (!read_number(word, HIGHEST_ADDRESS, &number))
        return false;
    block->bytes[block->length++] = (uint8_t)(number / 256);
    block->bytes[block->length++] = (uint8_t)(number % 256);
    return true;
}

/* "`-` or an empty word for no letters"; "a label has at most 12 bytes" */
static bool add_label(struct block *block, const char *word)
{
    size_t letters = strcmp(word, "-") == 0 ? 0 : strlen(word);

    if (letters > LABEL_BYTES)
        return false;
    memset(block->bytes + block->length, 0, LABEL_BYTES);
    memcpy(block->bytes + block->length, word, letters);
    block->length += LABEL_BYTES;
    return true;
}

static bool add_group(struct block *block, char **words)
{
    return add_byte(block, words[0]) && add_byte(block, words[1]) && add_byte(block, words[2])
        && add_address(block, words[3]);
}

/* "SITE is there from version 2 on, LABEL from version 3 on (a version over 3 has both, 0 none)" */
static unsigned head_words(unsigned version)
{
    return version < 2 ? 3 : version == 2 ? 4 : 5;
}

/* False if the words are anything else than a block. */
static bool read_block(struct block *block, char **words, unsigned count)
{
    unsigned version, head, groups;

    if (!read_number(words[0], 255, &version))
        return false;
    head = head_words(version);
    if (count < head || (count - head) % GROUP != 0 || (count - head) / GROUP > MOST_GROUPS)
        return false;
    groups = (count - head) / GROUP;
    block->bytes[AT_VERSION] = (uint8_t)version;
    block->bytes[AT_COUNT] = (uint8_t)groups;
    block->length = AT_LINE;
    if (!add_byte(block, words[1]) || !add_byte(block, words[2]))
        return false;
    if ((version >= 2 && !add_byte(block, words[3])) || (version >= 3 && !add_label(block, words[4])))
        return false;
    for (unsigned i = 0; i < groups; i++)
        if (!add_group(block, words + head + (size_t)GROUP * i))
            return false;
    return true;
}

static int usage(void)
{
    fputs("usage: site FILE [VERSION LINE DIVIDER [SITE [LABEL]] NAME PRIORITY W ADDRESS ..]\n", stderr);
    return EXIT_FAILURE;
}

int main(int argc, char **argv)
{
    static struct block block;

    if (argc < 2)
        return usage();
    if (argc == 2)
        return show(argv[1]);
    if (!read_block(&block, argv + 2, (unsigned)argc - 2))
        return usage();
    return write_to(argv[1], &block);
}
