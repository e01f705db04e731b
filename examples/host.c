/* A small weighbridge house: a ledger, a scale reader and a barrier as three virtual processors on one memory. The host writes the settings of the site,
 * starts from them, loads the programs, delivers the interrupts of a night and prints what the ledger was sent. The program in words is that of
 * examples/harvest-night.script, without its twelve desks.
 * Build and run: ./host examples/host.c */
#include <stdio.h>
#include <stdlib.h>
#include <string.h>

#include "wik.h"

enum {
    LEDGER = 1, SCALE = 2, BARRIER = 3,                     /* names; the priorities are 1, and in the settings 3 and 2 */
    CLOCK = 16, ON_SCALE = 17, BARRIER_OPEN = 18,           /* interrupts */
    LEDGER_AT = 2752, SCALE_AT = 3000, BARRIER_AT = 3200,   /* programs */
    READING = 3500, OPEN = 3530,                            /* messages that wait to be sent: a length, then the text */
    ORDER = 3600, ENTRY = 3700                              /* messages as read: sender, flag, length, text */
};

static uint8_t memory[WIK_WORDS];

/* ---- instructions, written one after the other */
static unsigned at;

static void word(unsigned value) { memory[at++] = (uint8_t)value; }
static void code(unsigned number, unsigned field) { word(224); word(number * 16 + field); }
static void address(unsigned above, unsigned a) { word(above * 32 + a / 256); word(a % 256); }

static void start(unsigned name) { code(8, name); }
static void wait_for_interrupt(unsigned number) { code(3, 0); word(number); word(1); }
static void send_to(unsigned name, unsigned flag, unsigned message) { code(4, name); address(flag, message); }
static void wait_for_mail(unsigned name) { code(5, name); word(0); }
static void read_mail(unsigned name, unsigned to) { code(6, name); address(0, to); }
static void jump(unsigned to) { code(13, 0); address(4, to); }

static void load(void) {
    at = LEDGER_AT;
    start(SCALE);
    start(BARRIER);
    unsigned books = at;
    wait_for_mail(SCALE);
    read_mail(SCALE, ENTRY);
    jump(books);

    at = SCALE_AT;
    wait_for_interrupt(ON_SCALE);
    send_to(LEDGER, 1, READING);
    send_to(BARRIER, 1, OPEN);
    jump(SCALE_AT);

    at = BARRIER_AT;
    wait_for_mail(SCALE);
    read_mail(SCALE, ORDER);
    wait_for_interrupt(BARRIER_OPEN);
    jump(BARRIER_AT);
}

/* ---- between calls the host writes only page 0 and words that are not protected */
static void message(unsigned to, const char *text) {
    size_t n = strlen(text);
    memory[to] = (uint8_t)n;
    memcpy(memory + to + 1, text, n);
}

static void expect(const char *call, uint64_t answer) {
    if (wik_number(answer) == WIK_DONE) return;
    fprintf(stderr, "%s: answer %u\n", call, wik_number(answer));
    exit(1);
}

static unsigned runner(void) {
    uint64_t registers = wik_read_registers(memory, sizeof memory);
    return wik_number(registers) == WIK_DONE ? wik_lr(registers) : 0;
}

static void print_entry(void) {
    printf("ledger: from %u, flag %u: %.*s\n", memory[ENTRY], memory[ENTRY + 1], memory[ENTRY + 2], (const char *)memory + ENTRY + 3);
}

/* Runs until nobody is ready, at most so many instructions; the ledger has read an entry when its jump comes next, behind two starts, a wait and a read. */
static void run(unsigned most) {
    for (unsigned i = 0; i < most; i++) {
        uint64_t answer = wik_instruction(memory, sizeof memory);
        unsigned number = wik_number(answer);
        if (number == WIK_IDLE) { puts("all wait"); return; }
        if (number == WIK_WAITS) continue;
        if (number != WIK_DONE) { printf("answer %u, %u\n", number, wik_first(answer)); exit(1); }
        if (runner() == LEDGER_AT + 11) print_entry();
    }
}

static void truck(const char *reading) {
    message(READING, reading);
    printf("scale: %s\n", reading);
    expect("interrupt", wik_interrupt(memory, sizeof memory, ON_SCALE, 0));
}

/* What the line card kept while the host was away, in one call: pairs of number and class number. A list with a bad pair is refused whole, and told where. */
static void burst(const uint8_t *list, size_t count) {
    static uint8_t lent[WIK_WORDS];
    memcpy(lent, memory, sizeof lent);
    uint64_t answer = wik_burst(memory, sizeof memory, list, count);
    printf("burst of %zu bytes: %s", count, wik_text(answer));
    if (wik_number(answer) == WIK_NO_INTERRUPT || wik_number(answer) == WIK_WRONG_CLASS) printf(", pair %u", wik_bad_pair(answer));
    puts(memcmp(lent, memory, sizeof lent) == 0 ? "; nothing has changed" : "");
}

/* A word that is spoiled from outside: every call is refused with what is broken and where, and the memory comes back as it was lent. */
static void spoil(unsigned place, uint8_t value) {
    static uint8_t lent[WIK_WORDS];
    uint8_t good = memory[place];
    memory[place] = value;
    memcpy(lent, memory, sizeof lent);
    uint64_t answer = wik_instruction(memory, sizeof memory);
    if (!wik_is_broken(answer) || wik_judge(memory, sizeof memory) != answer || memcmp(lent, memory, sizeof lent) != 0) {
        fprintf(stderr, "word %u spoiled: answer %u\n", place, wik_number(answer));
        exit(1);
    }
    printf("word %u spoiled: answer %u at %u, %s\n", place, wik_number(answer), wik_broken_at(answer), wik_text(answer));
    memory[place] = good;
}

/* ---- the settings of the site: what would stand in a file that comes along when a box is swapped */
static uint8_t file[128];
static size_t used;

static void settings(const char *what, const uint8_t *block, size_t length) {
    uint64_t answer = wik_write_settings(file, sizeof file, used, block, length);
    printf("%s: %s", what, wik_text(answer));
    if (wik_number(answer) == WIK_WRITTEN) {
        used = wik_new_length(used, length);
        printf(", %zu bytes", used);
    }
    if (wik_number(answer) == WIK_TOO_NEW) printf(", version %u", wik_version(answer));
    puts("");
}

/* A file that is damaged on the way is refused, and the memory stays as it is. */
static void damage(size_t place, uint8_t value) {
    uint8_t good = file[place];
    file[place] = value;
    uint64_t answer = wik_fresh_from_settings(memory, sizeof memory, file, used);
    printf("byte %zu of the settings is %u: answer %u, %s\n", place, value, wik_number(answer), wik_text(answer));
    file[place] = good;
}

int main(void) {
    const uint8_t quiet[] = { 1, 0, CLOCK, 5 };
    const uint8_t house[] = {
        3, 2, CLOCK, 5, 7, 'P', 'o', 'z', 'n', 'a', 'n', 0, 0, 0, 0, 0, 0,
        SCALE, 3, 0, SCALE_AT / 256, SCALE_AT % 256,
        BARRIER, 2, 0, BARRIER_AT / 256, BARRIER_AT % 256
    };
    const uint8_t newer[] = { 4, 0, CLOCK, 5 };
    settings("settings of an empty house", quiet, sizeof quiet);
    settings("settings of this house", house, sizeof house);
    settings("settings of a newer box", newer, sizeof newer);
    damage(used - 3, 28);               /* how far back the block begins */
    damage(used - 2, 9);                /* its version */
    damage(used - 9, SCALE);            /* the barrier's name */
    expect("fresh", wik_fresh_from_settings(memory, sizeof memory, file, used));
    load();
    message(OPEN, "open");
    run(100);

    /* a quiet hour: one truck at a time */
    truck("B-117 18240 kg");
    run(100);
    expect("interrupt", wik_interrupt(memory, sizeof memory, BARRIER_OPEN, 0));
    run(100);

    /* the rush: three trucks before the ledger has read the first; the barrier's motor is slow */
    truck("K-204 21980 kg");
    run(6);
    truck("M-330 17460 kg");
    run(6);
    truck("B-118 20115 kg");
    run(100);
    expect("interrupt", wik_interrupt(memory, sizeof memory, BARRIER_OPEN, 0));
    run(100);

    /* the host was away: seven ticks of the clock, the scale and the barrier, and the scale again, which nobody waited for yet */
    const uint8_t night[] = { CLOCK, 0, CLOCK, 0, BARRIER_OPEN, 0, CLOCK, 0, CLOCK, 0, ON_SCALE, 0, CLOCK, 0, ON_SCALE, 0, CLOCK, 0, CLOCK, 0 };
    message(READING, "S-041 19305 kg");
    burst(night, sizeof night);
    run(100);
    const uint8_t torn[] = { ON_SCALE, 0, BARRIER_OPEN, 7, CLOCK, 0 };
    burst(torn, sizeof torn);
    burst(torn, 3);
    burst(torn, 0);
    printf("clock: C0 %u, C1 %u\n", memory[240], memory[241]);

    /* the free list, its semaphore, the ledger's name, the table of errors, a counter of the clock: each is spoiled and put back */
    spoil(244, 236);
    spoil(245, 200);
    spoil(7559, 16);
    spoil(288, 33);
    spoil(243, 99);
    expect("judge", wik_judge(memory, sizeof memory));
    return 0;
}
