/*
 * Queues as arrays.  "A header holds the first page, a link the next, 0 ends.  The processor list
 * links through word 1, all else through word 0."
 */
#include "machine.h"

/* Ends on any memory: a list of more than twenty pages must have come back on itself. */
struct queue queue_read(const uint8_t *m, unsigned header, unsigned link)
{
    struct queue q = { .header = header, .link = link };
    unsigned page = m[header];

    while (page != 0) {
        if (!is_control_page(page) || q.count == PAGES) {
            q.broken = true;
            break;
        }
        q.page[q.count++] = (uint8_t)page;
        page = m[at(page, link)];
    }
    return q;
}

static void queue_write(uint8_t *m, const struct queue *q)
{
    store(m, q->header, q->count > 0 ? q->page[0] : 0u);
    for (unsigned i = 0; i < q->count; i++)
        store(m, at(q->page[i], q->link), i + 1 < q->count ? q->page[i + 1] : 0u);
}

/* "Joining is at the end, with link 0" */
void queue_join(uint8_t *m, unsigned header, unsigned link, unsigned page)
{
    struct queue q = queue_read(m, header, link);

    if (q.count < PAGES)
        q.page[q.count++] = (uint8_t)page;
    queue_write(m, &q);
}

/* "a page that leaves has that link set to 0" */
void queue_leave(uint8_t *m, unsigned header, unsigned link, unsigned page)
{
    struct queue q = queue_read(m, header, link);
    unsigned kept = 0;

    for (unsigned i = 0; i < q.count; i++)
        if (q.page[i] != page)
            q.page[kept++] = q.page[i];
    q.count = kept;
    queue_write(m, &q);
    store(m, at(page, link), 0);
}
