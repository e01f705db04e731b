/*
 * The script program: reads orders, one a line, calls the kernel and prints the answers.
 * Standard input, or the file named by its one argument.
 */
#include <errno.h>
#include <stdbool.h>
#include <stdio.h>
#include <stdlib.h>
#include <string.h>

#include "disk.h"
#include "kernel.h"
#include "machine.h"
#include "show.h"

/* `burst` takes as many numbers as a line holds: each has one digit and one space before it. */
enum { BUFFER = 8200, LONGEST_LINE = 255, LONGEST_LOOK = 32, MOST_NUMBERS = (LONGEST_LINE - 5) / 2 };

static uint8_t memory[BUFFER];
static uint8_t compared[BUFFER];  /* what the words were at the last `changes` */
static size_t lent = WORDS;

static void print_answer(const struct answer *answer)
{
    switch (answer->kind) {
    case ANSWER_DONE: puts("done"); break;
    case ANSWER_WAITS: puts("waits"); break;
    case ANSWER_HANDED_OUT:
        printf("handed out %u %u\n", (unsigned)answer->program, (unsigned)answer->arguments);
        break;
    case ANSWER_FAULT:
        printf("fault %u by %u\n", (unsigned)answer->number, (unsigned)answer->name);
        break;
    case ANSWER_WRITTEN: printf("written %zu\n", answer->written); break;
    case ANSWER_REFUSED:
        printf("refused %u", (unsigned)answer->number);
        if (answer->number >= REFUSE_USES && answer->number <= REFUSE_RUNNING)
            printf(" at %u", (unsigned)answer->address);
        if (answer->place != 0)
            printf(" at %u", (unsigned)answer->place);
        if (answer->number == REFUSE_VERSION)
            printf(" at %u", (unsigned)answer->version);
        putchar('\n');
        break;
    }
}

static void not_allowed(void)
{
    puts("not allowed");
}

static void do_fresh(const uint32_t *n, unsigned count)
{
    struct answer answer = kernel_fresh(memory, lent, n[0], n[1]);

    (void)count;
    print_answer(&answer);
}

static void do_step(const uint32_t *n, unsigned count)
{
    struct answer answer = kernel_instruction(memory, lent);

    (void)n;
    (void)count;
    print_answer(&answer);
}

static void do_interrupt(const uint32_t *n, unsigned count)
{
    struct answer answer = kernel_interrupt(memory, lent, n[0], count == 2 ? n[1] : 0);

    print_answer(&answer);
}

/* "a number over 255 goes into it as 255, which is as bad (24 or 25) as the number itself" */
static void do_burst(const uint32_t *n, unsigned count)
{
    uint8_t list[MOST_NUMBERS] = { 0 };
    struct answer answer;

    for (unsigned i = 0; i < count; i++)
        list[i] = (uint8_t)(n[i] > 255 ? 255 : n[i]);
    answer = kernel_burst(memory, lent, list, count);
    print_answer(&answer);
}

static void do_registers(const uint32_t *n, unsigned count)
{
    struct registers r;
    struct answer answer = kernel_read_registers(memory, lent, &r);

    (void)n;
    (void)count;
    if (answer.kind != ANSWER_DONE) {
        print_answer(&answer);
        return;
    }
    printf("registers %u %u %u %u %u %u %u\n", (unsigned)r.a, (unsigned)r.s, (unsigned)r.p, (unsigned)r.z,
           (unsigned)r.ci, (unsigned)r.lr, (unsigned)r.w);
}

static void do_set(const uint32_t *n, unsigned count)
{
    struct registers r = { n[0], n[1], n[2], n[3], n[4], n[5], n[6] };
    struct answer answer = kernel_set_registers(memory, lent, &r);

    (void)count;
    print_answer(&answer);
}

static void do_judge(const uint32_t *n, unsigned count)
{
    struct answer answer = kernel_judge(memory, lent);

    (void)n;
    (void)count;
    if (answer.kind == ANSWER_DONE)
        puts("well-formed");
    else
        print_answer(&answer);
}

/* Stores all values or, if one is not allowed, none. */
static void store_values(const uint32_t *n, unsigned count, bool (*may_store)(uint32_t))
{
    for (unsigned i = 1; i < count; i++)
        if (n[i] > 255 || !may_store(n[0] + i - 1)) {
            not_allowed();
            return;
        }
    for (unsigned i = 1; i < count; i++)
        store(memory, n[0] + i - 1, n[i]);
}

/* "only page 0 and unprotected words" */
static bool host_may_store(uint32_t address)
{
    return address < PAGE_WORDS || (address < WORDS && !is_protected(address));
}

static bool is_in_buffer(uint32_t address)
{
    return address < BUFFER;
}

static void do_put(const uint32_t *n, unsigned count)
{
    store_values(n, count, host_may_store);
}

static void do_break(const uint32_t *n, unsigned count)
{
    store_values(n, count, is_in_buffer);
}

static void do_length(const uint32_t *n, unsigned count)
{
    (void)count;
    if (n[0] > BUFFER)
        not_allowed();
    else
        lent = n[0];
}

static void do_words(const uint32_t *n, unsigned count)
{
    (void)count;
    if (n[1] < 1 || n[1] > LONGEST_LOOK || n[0] + n[1] > BUFFER) {
        not_allowed();
        return;
    }
    for (uint32_t i = 0; i < n[1]; i++)
        printf("%s%u", i > 0 ? " " : "", (unsigned)memory[n[0] + i]);
    putchar('\n');
}

static void do_changes(const uint32_t *n, unsigned count)
{
    unsigned changed = 0;

    (void)n;
    (void)count;
    for (unsigned i = 0; i < BUFFER; i++) {
        if (memory[i] == compared[i])
            continue;
        printf("%u %u %u\n", i, (unsigned)compared[i], (unsigned)memory[i]);
        changed++;
    }
    printf("changed %u\n", changed);
    memcpy(compared, memory, BUFFER);
}

static bool is_part(uint32_t address, uint32_t count)
{
    return address + count <= BUFFER;
}

/* The file is copied out first: the fresh start clears words that it may stand in. */
static void do_settings(const uint32_t *n, unsigned count)
{
    uint8_t file[BUFFER];
    struct answer answer;

    (void)count;
    if (!is_part(n[0], n[1])) {
        not_allowed();
        return;
    }
    memcpy(file, memory + n[0], n[1]);
    answer = kernel_fresh_from_settings(memory, lent, file, n[1]);
    print_answer(&answer);
}

/* FILE ROOM USED BLOCK LENGTH; the two parts may overlap, what is lent to the call does not. */
static void do_write(const uint32_t *n, unsigned count)
{
    uint8_t file[BUFFER], block[BUFFER];
    struct answer answer;

    (void)count;
    if (!is_part(n[0], n[1]) || !is_part(n[3], n[4])) {
        not_allowed();
        return;
    }
    memcpy(file, memory + n[0], n[1]);
    memcpy(block, memory + n[3], n[4]);
    answer = kernel_write_settings(file, n[1], n[2], block, n[4]);
    memcpy(memory + n[0], file, n[1]);
    print_answer(&answer);
}

static void do_show(const uint32_t *n, unsigned count)
{
    (void)n;
    (void)count;
    show_state(memory, lent);
}

static const struct {
    const char *name;
    unsigned fewest, most;  /* numbers after the name */
    void (*carry_out)(const uint32_t *numbers, unsigned count);
} orders[] = {
    { "fresh", 2, 2, do_fresh },         { "step", 0, 0, do_step },
    { "interrupt", 1, 2, do_interrupt }, { "registers", 0, 0, do_registers },
    { "set", 7, 7, do_set },             { "judge", 0, 0, do_judge },
    { "put", 2, 33, do_put },            { "break", 2, 33, do_break },
    { "length", 1, 1, do_length },       { "words", 2, 2, do_words },
    { "changes", 0, 0, do_changes },     { "show", 0, 0, do_show },
    { "burst", 0, MOST_NUMBERS, do_burst }, { "settings", 2, 2, do_settings },
    { "write", 5, 5, do_write },
};

struct word {
    const char *start;
    size_t length;
};

/* The next word of the text, parted by spaces only; a tab is a letter like any other. */
static struct word next_word(const char **text, const char *end)
{
    struct word word;

    while (*text < end && **text == ' ')
        (*text)++;
    word.start = *text;
    while (*text < end && **text != ' ')
        (*text)++;
    word.length = (size_t)(*text - word.start);
    return word;
}

/* "numbers are digits only, 0 to 65535"; leading zeros do no harm. */
static bool read_number(struct word word, uint32_t *number)
{
    *number = 0;
    for (size_t i = 0; i < word.length; i++) {
        char c = word.start[i];

        if (c < '0' || c > '9')
            return false;
        *number = *number * 10 + (uint32_t)(c - '0');
        if (*number > 65535)
            return false;
    }
    return true;
}

/* False if there are more numbers than any order has, or one is no number. */
static bool read_numbers(const char *text, const char *end, uint32_t *numbers, unsigned *count)
{
    *count = 0;
    for (;;) {
        struct word word = next_word(&text, end);

        if (word.length == 0)
            return true;
        if (*count == MOST_NUMBERS || !read_number(word, &numbers[*count]))
            return false;
        (*count)++;
    }
}

static bool is_word(struct word word, const char *text)
{
    return strlen(text) == word.length && memcmp(text, word.start, word.length) == 0;
}

/* The lent words to a file.  No file has a name with a zero byte in it, so the system is not asked for one. */
static void save(struct word file)
{
    char name[LONGEST_LINE + 1];

    memcpy(name, file.start, file.length);
    name[file.length] = '\0';
    fflush(stdout);
    if (strlen(name) < file.length) {
        errno = EINVAL;
        perror(name);
    } else if (replace_file(name, memory, lent)) {
        printf("written %zu\n", lent);
    }
}

/* The one order with a word that is no number: exactly one. */
static bool understand_save(const char *text, const char *end)
{
    struct word file = next_word(&text, end);

    if (file.length == 0 || next_word(&text, end).length != 0)
        return false;
    save(file);
    return true;
}

/* Carries out one line; false if it is not understood. */
static bool understand(const char *text, size_t length)
{
    const char *comment = memchr(text, '#', length);
    const char *end = comment != NULL ? comment : text + length;
    struct word name = next_word(&text, end);
    uint32_t numbers[MOST_NUMBERS];
    unsigned count;

    if (name.length == 0)
        return true;
    if (is_word(name, "save"))
        return understand_save(text, end);
    if (!read_numbers(text, end, numbers, &count))
        return false;
    for (size_t i = 0; i < sizeof orders / sizeof orders[0]; i++) {
        if (!is_word(name, orders[i].name))
            continue;
        if (count < orders[i].fewest || count > orders[i].most)
            return false;
        orders[i].carry_out(numbers, count);
        return true;
    }
    return false;
}

/* Reads a line without its line feed; only the first 256 characters are kept. */
static bool read_line(FILE *in, char *line, size_t *length)
{
    int c = getc(in);

    *length = 0;
    if (c == EOF)
        return false;
    while (c != EOF && c != '\n') {
        if (*length <= LONGEST_LINE)
            line[(*length)++] = (char)c;
        c = getc(in);
    }
    return true;
}

int main(int argc, char **argv)
{
    FILE *in = stdin;
    char line[LONGEST_LINE + 1];
    size_t length;

    if (argc > 2) {
        fprintf(stderr, "usage: %s [script]\n", argv[0]);
        return 2;
    }
    if (argc == 2 && (in = fopen(argv[1], "rb")) == NULL) {
        perror(argv[1]);
        return 1;
    }
    for (unsigned long number = 1; read_line(in, line, &length); number++)
        if (length > LONGEST_LINE || !understand(line, length))
            printf("line %lu: not understood\n", number);
    return fflush(stdout) == 0 && !ferror(stdout) && !ferror(in) ? 0 : 1;
}
