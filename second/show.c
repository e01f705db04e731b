/* The state for a person to read.  Everything is printed as it stands, broken or not. */
#include "show.h"

#include <stdio.h>

#include "machine.h"

/* "Semaphores are signed bytes." */
static int semaphore(const uint8_t *m, unsigned address)
{
    return m[address] < 128 ? m[address] : m[address] - 256;
}

static void show_queue(const uint8_t *m, const char *title, unsigned header, unsigned link)
{
    struct queue q = queue_read(m, header, link);

    printf("  %s:", title);
    for (unsigned i = 0; i < q.count; i++)
        printf(" %u", (unsigned)q.page[i]);
    puts(q.broken ? " broken" : "");
}

static void show_messages(const uint8_t *m, const char *title, unsigned header)
{
    struct queue q = queue_read(m, header, LINK);

    for (unsigned i = 0; i < q.count; i++) {
        unsigned page = q.page[i], length = text_length(m, page);

        printf("    %s page %u: from %u flag %u, ", title, page, m[at(page, FROM)] / 16u, m[at(page, FROM)] % 16u);
        if (m[at(page, LENGTH)] == NOTICE) {
            puts("notice");
            continue;
        }
        printf("%slength %u:", is_marked(m[at(page, LENGTH)]) ? "its sender is gone, " : "", length);
        for (unsigned word = 0; word < length && word < LONGEST_TEXT; word++)
            printf(" %u", (unsigned)m[at(page, TEXT + word)]);
        putchar('\n');
    }
    if (q.broken)
        printf("    %s is broken\n", title);
}

static void show_wait(const uint8_t *m, unsigned page)
{
    unsigned header = wait_header_of(m, page), reason = m[at(page, REASON)];

    if (header == 0)
        printf(" waiting in no queue");
    else if (header == PAGE_QUEUE)
        printf(" waiting for a page");
    else if (header == at(page, OWN_WAIT))
        printf(" waiting for a message from %u flag %u", reason / 16, reason % 16);
    else
        printf(" waiting for interrupt %u, %u times", (header - TABLES - 2) / 2, reason);
}

static void show_processor(const uint8_t *m, unsigned page)
{
    unsigned bits = m[at(page, LR_HIGH)], state = m[at(page, STATE)];

    printf("  processor %u on page %u, priority %u:", name_of(m, page), page, priority_of(m, page));
    printf("%s%s", page == m[RUNNING_PAGE] ? " running" : "", (state & STOPPED) != 0 ? " stopped" : "");
    if ((state & WAITING) != 0)
        show_wait(m, page);
    printf("\n    A %u S %u P %u Z %u CI %u LR %u W %u\n", (unsigned)m[at(page, REGISTER_A)],
           (unsigned)m[at(page, REGISTER_S)], bits >> 7, bits >> 6 & 1u, bits >> 5 & 1u, get_lr(m, page),
           state & STATE_W);
    printf("    kept words:");
    for (unsigned word = SAVED; word < PAGE_WORDS; word++)
        printf(" %u", (unsigned)m[at(page, word)]);
    putchar('\n');
    show_messages(m, "Q1", at(page, Q1));
    show_messages(m, "Q2", at(page, Q2));
}

static void show_interrupts(const uint8_t *m)
{
    for (unsigned k = 1; k <= INTERRUPTS; k++) {
        char title[48];

        if (m[interrupt_header(k)] == 0 && m[interrupt_header(k) - 1] == 0)
            continue;
        snprintf(title, sizeof title, "interrupt %u (semaphore %d)", k, semaphore(m, interrupt_header(k) - 1));
        show_queue(m, title, interrupt_header(k), LINK);
    }
}

static void show_tables(const uint8_t *m)
{
    printf("  clock: line %u divider %u counters %u %u %u %u\n", (unsigned)m[LINE], (unsigned)m[DIVIDER],
           (unsigned)m[C0], (unsigned)m[C1], (unsigned)m[C2], (unsigned)m[C3]);
    printf("  codes:");
    for (unsigned code = 0; code < CODES; code++) {
        if (code_kind(m, code) == KIND_OWN)
            printf(" %u own at %u;", code, code_program(m, code));
        else if (code_kind(m, code) != KIND_BUILT_IN)
            printf(" %u %s;", code, code_kind(m, code) == KIND_ABSENT ? "absent" : "broken");
    }
    printf(" all others built in\n  faults:");
    for (unsigned word = 1; word < PAGE_WORDS && word < m[FAULT_TABLE]; word++)
        printf(" %u by %u;", m[FAULT_TABLE + word] % 16u, m[FAULT_TABLE + word] / 16u);
    printf(" first unused word %u\n  grants:", (unsigned)m[FAULT_TABLE]);
    for (unsigned name = 1; name <= HIGHEST_NAME; name++)
        if (m[GRANTS + name] != 0)
            printf(" page %u to %u;", (unsigned)m[GRANTS + name], name);
    putchar('\n');
}

static void show_page_0(const uint8_t *m)
{
    printf("  page 0:");
    for (unsigned word = 0; word < PAGE_WORDS; word++)
        printf(" %u", (unsigned)m[word]);
    putchar('\n');
}

static void show_verdict(const uint8_t *m)
{
    struct finding broken = judge(m);

    if (broken.number == 0)
        puts("well-formed");
    else
        printf("not well-formed: %u at %u\n", broken.number, broken.address);
}

void show_state(const uint8_t *m, size_t lent)
{
    struct queue list = queue_read(m, PROCESSOR_LIST, LIST_LINK);

    printf("state: lent %lu words, ", (unsigned long)lent);
    show_verdict(m);
    if (m[RUNNING_PAGE] == 0)
        puts("  idle");
    show_page_0(m);
    show_tables(m);
    show_queue(m, "free list", FREE_LIST, LINK);
    printf("  free semaphore: %d\n", semaphore(m, FREE_SEMAPHORE));
    show_queue(m, "waiting for a page", PAGE_QUEUE, LINK);
    show_interrupts(m);
    show_queue(m, "processor list", PROCESSOR_LIST, LIST_LINK);
    for (unsigned i = 0; i < list.count; i++)
        show_processor(m, list.page[i]);
}
