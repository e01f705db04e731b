/* Waiting, waking and the service of interrupts. */
#include "machine.h"

/*
 * There are three kinds of wait queue: an interrupt's, the page queue and a processor's own
 * message wait.  In each the semaphore is the word before the header, and each falls by one with
 * every waiter: "The free semaphore is the free count less the waiters; an interrupt's is minus
 * its waiters; a processor's own is -1 while it waits for a message, else 0."
 */
static void count_semaphore(uint8_t *m, unsigned header, int step)
{
    store(m, header - 1, (unsigned)(m[header - 1] + step));
}

void wait_join(uint8_t *m, unsigned header, unsigned page, unsigned reason)
{
    queue_join(m, header, LINK, page);
    count_semaphore(m, header, -1);
    store(m, at(page, REASON), reason);
    store(m, at(page, STATE), m[at(page, STATE)] | WAITING);
}

/* Leaves the queue, not woken: the reason and the waiting bit stay. */
void wait_leave(uint8_t *m, unsigned header, unsigned page)
{
    queue_leave(m, header, LINK, page);
    count_semaphore(m, header, +1);
}

/* "Waking leaves the queue and clears the waiting bit and reason."  A stopped one stays stopped. */
void wake(uint8_t *m, unsigned header, unsigned page)
{
    wait_leave(m, header, page);
    store(m, at(page, STATE), m[at(page, STATE)] & ~(unsigned)WAITING);
    store(m, at(page, REASON), 0);
}

static bool holds(const uint8_t *m, unsigned header, unsigned page)
{
    struct queue q = queue_read(m, header, LINK);

    for (unsigned i = 0; i < q.count; i++)
        if (q.page[i] == page)
            return true;
    return false;
}

/* The header of the wait queue a processor is in, or 0. */
unsigned wait_header_of(const uint8_t *m, unsigned page)
{
    if ((m[at(page, STATE)] & WAITING) == 0)
        return 0;
    if (m[at(page, OWN_WAIT)] == page)
        return at(page, OWN_WAIT);
    if (holds(m, PAGE_QUEUE, page))
        return PAGE_QUEUE;
    for (unsigned k = 1; k <= INTERRUPTS; k++)
        if (holds(m, interrupt_header(k), page))
            return interrupt_header(k);
    return 0;
}

/*
 * "Each waiter front to back: reason 1 wakes and leaves, else reason falls by one.  For 48-50
 * those removed get the class number 0-31 in A."
 */
void serve(uint8_t *m, unsigned k, unsigned class_number)
{
    unsigned header = interrupt_header(k);
    struct queue waiters = queue_read(m, header, LINK);

    for (unsigned i = 0; i < waiters.count; i++) {
        unsigned page = waiters.page[i];
        unsigned reason = m[at(page, REASON)];

        if (reason != 1) {
            store(m, at(page, REASON), reason - 1);
            continue;
        }
        wake(m, header, page);
        if (k >= 48 && k <= 50)
            store(m, at(page, REGISTER_A), class_number);
    }
}

/* Counts one counter; at its end it is 0 before the interrupt it gives is served. */
static bool counts_to_end(uint8_t *m, unsigned counter, unsigned end)
{
    unsigned next = m[counter] + 1u;

    store(m, counter, next == end ? 0u : next);
    return next == end;
}

/*
 * "An interrupt on the clock line is served, then C0 counts; at the divider it is 0 and 51 is
 * served and C1 counts; at 10, 52 and C2; at 60, 53 and C3; at 60, 54."
 */
void serve_from_outside(uint8_t *m, unsigned k, unsigned class_number)
{
    const unsigned ends[4] = { m[DIVIDER], 10, 60, 60 };

    serve(m, k, class_number);
    if (k != m[LINE])
        return;
    for (unsigned i = 0; i < 4; i++) {
        if (!counts_to_end(m, C0 + i, ends[i]))
            return;
        serve(m, 51 + i, 0);
    }
}
