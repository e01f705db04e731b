/* Messages, control pages taken and given back, and the deletion of a processor. */
#include "machine.h"

/* Word 2 of a message whose sender was deleted after it sent this: 64-93. */
bool is_marked(unsigned length)
{
    return length >= MARKED && length <= MARKED + LONGEST_TEXT;
}

/* "RME hands out the true length"; a notice "is read as length 0". */
unsigned text_length(const uint8_t *m, unsigned message)
{
    unsigned length = m[at(message, LENGTH)];

    if (length == NOTICE)
        return 0;
    return is_marked(length) ? length - MARKED : length;
}

/* Both are name*16+flag.  "A match on NI or flag 0 means any." */
bool matches(unsigned wanted, unsigned from)
{
    unsigned name = wanted / 16, flag = wanted % 16;

    return (name == 0 || name == from / 16) && (flag == 0 || flag == from % 16);
}

/* The first page in the queue of messages that matches, or 0. */
unsigned first_match(const uint8_t *m, unsigned header, unsigned wanted)
{
    struct queue q = queue_read(m, header, LINK);

    for (unsigned i = 0; i < q.count; i++)
        if (matches(wanted, m[at(q.page[i], FROM)]))
            return q.page[i];
    return 0;
}

/* "The page joins NI's Q1; if NI waits for it, NI wakes."  "A notice wakes one alike." */
void deliver(uint8_t *m, unsigned message, unsigned receiver)
{
    unsigned own_wait = at(receiver, OWN_WAIT);

    queue_join(m, at(receiver, Q1), LINK, message);
    if (m[own_wait] == receiver && matches(m[at(receiver, REASON)], m[at(message, FROM)]))
        wake(m, own_wait, receiver);
}

/* "SME and CRP use the page granted to them, else the first free one"; 0 if there is none. */
unsigned take_page(uint8_t *m, unsigned name)
{
    unsigned page = m[GRANTS + name];

    if (page != 0) {
        store(m, GRANTS + name, 0);
        return page;
    }
    page = m[FREE_LIST];
    if (page != 0) {
        queue_leave(m, FREE_LIST, LINK, page);
        store(m, FREE_SEMAPHORE, m[FREE_SEMAPHORE] - 1u);
    }
    return page;
}

/*
 * "A page given back goes to the first waiter as its grant and wakes it; with no waiter, to the
 * end of the free list."  A grant is no joining: the page keeps its word 0.
 */
void give_back(uint8_t *m, unsigned page)
{
    unsigned waiter = m[PAGE_QUEUE];

    if (waiter != 0) {
        wake(m, PAGE_QUEUE, waiter);
        store(m, GRANTS + name_of(m, waiter), page);
        return;
    }
    queue_join(m, FREE_LIST, LINK, page);
    store(m, FREE_SEMAPHORE, m[FREE_SEMAPHORE] + 1u);
}

/* "Unmarked mail under its name counts as sent by it; marked mail isn't marked again", and "notices aren't marked". */
static void mark_mail(uint8_t *m, unsigned header, unsigned name)
{
    struct queue q = queue_read(m, header, LINK);

    for (unsigned i = 0; i < q.count; i++) {
        unsigned length = m[at(q.page[i], LENGTH)];

        if (m[at(q.page[i], FROM)] / 16u == name && length < MARKED)
            store(m, at(q.page[i], LENGTH), length + MARKED);
    }
}

/* "marks every message it sent that is still unread .., its own queues included": it is on the list no more. */
static void mark_sent(uint8_t *m, unsigned page, unsigned name)
{
    struct queue list = queue_read(m, PROCESSOR_LIST, LIST_LINK);

    for (unsigned i = 0; i < list.count; i++) {
        mark_mail(m, at(list.page[i], Q1), name);
        mark_mail(m, at(list.page[i], Q2), name);
    }
    mark_mail(m, at(page, Q1), name);
    mark_mail(m, at(page, Q2), name);
}

/*
 * "a message whose sender's name exists becomes a notice from NI to it with its flag, all others
 * and all notices are given back", and so is marked mail: who has the name now did not send it.
 * The page leaves its queue before anything else is done to it.
 */
static void return_mail(uint8_t *m, unsigned header, unsigned name)
{
    while (m[header] != 0) {
        unsigned message = m[header];
        unsigned from = m[at(message, FROM)], length = m[at(message, LENGTH)];
        bool is_mail = length != NOTICE && !is_marked(length);
        unsigned sender = is_mail ? find_processor(m, from / 16) : 0;

        queue_leave(m, header, LINK, message);
        if (sender == 0) {
            give_back(m, message);
            continue;
        }
        store(m, at(message, FROM), name * 16 + from % 16);
        store(m, at(message, LENGTH), NOTICE);
        deliver(m, message, sender);
    }
}

/*
 * "In order: leave any wait queue (not woken); leave the processor list; Q2 then Q1 from the
 * front ..; then the grant; then its own page."  "The marking follows leaving the processor list".
 */
void delete_processor(uint8_t *m, unsigned page)
{
    unsigned name = name_of(m, page);
    unsigned wait = wait_header_of(m, page);
    unsigned grant = m[GRANTS + name];

    if (wait != 0)
        wait_leave(m, wait, page);
    queue_leave(m, PROCESSOR_LIST, LIST_LINK, page);
    mark_sent(m, page, name);
    return_mail(m, at(page, Q2), name);
    return_mail(m, at(page, Q1), name);
    if (grant != 0) {
        store(m, GRANTS + name, 0);
        give_back(m, grant);
    }
    give_back(m, page);
}
