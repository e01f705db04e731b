/* Processor pages, and who runs. */
#include "machine.h"

/* Word 7 is "priority*16+name". */
unsigned name_of(const uint8_t *m, unsigned page)
{
    return m[at(page, WHO)] % 16u;
}

unsigned priority_of(const uint8_t *m, unsigned page)
{
    return m[at(page, WHO)] / 16u;
}

/* "ready (neither bit set)" */
bool is_ready(const uint8_t *m, unsigned page)
{
    return (m[at(page, STATE)] & (STOPPED | WAITING)) == 0;
}

/* The page of the processor of that name, or 0: a name exists if it is on the list now. */
unsigned find_processor(const uint8_t *m, unsigned name)
{
    struct queue list = queue_read(m, PROCESSOR_LIST, LIST_LINK);

    for (unsigned i = 0; i < list.count; i++)
        if (name_of(m, list.page[i]) == name)
            return list.page[i];
    return 0;
}

/* Word 10 has P Z CI before LR's high five bits. */
unsigned get_lr(const uint8_t *m, unsigned page)
{
    return read_address(m, at(page, LR_HIGH));
}

void set_lr(uint8_t *m, unsigned page, unsigned lr)
{
    unsigned bits = m[at(page, LR_HIGH)] & 224u;

    store(m, at(page, LR_HIGH), bits + lr / 256);
    store(m, at(page, LR_LOW), lr);
}

/* "created stopped, all else zero"; it joins the processor list. */
void set_up_processor(uint8_t *m, unsigned page, unsigned name, unsigned priority, unsigned w, unsigned lr)
{
    for (unsigned word = 0; word < PAGE_WORDS; word++)
        store(m, at(page, word), 0);
    store(m, at(page, WHO), priority * 16 + name);
    store(m, at(page, STATE), STOPPED + w);
    set_lr(m, page, lr);
    queue_join(m, PROCESSOR_LIST, LIST_LINK, page);
}

/* "13-15 and 16-31 keep words 4-6 and 16-31 of page 0 while another runs" */
static unsigned kept_word(unsigned word)
{
    return word < 16 ? word - SAVED + 4 : word;
}

static void save_page_0(uint8_t *m, unsigned page)
{
    for (unsigned word = SAVED; word < PAGE_WORDS; word++)
        store(m, at(page, word), m[kept_word(word)]);
}

static void load_page_0(uint8_t *m, unsigned page)
{
    for (unsigned word = SAVED; word < PAGE_WORDS; word++)
        store(m, kept_word(word), m[at(page, word)]);
}

/* "the first on the processor list of the highest ready priority; else nobody" */
static unsigned first_of_highest(const uint8_t *m)
{
    struct queue list = queue_read(m, PROCESSOR_LIST, LIST_LINK);
    unsigned chosen = 0, highest = 0;

    for (unsigned i = 0; i < list.count; i++) {
        unsigned page = list.page[i];

        if (is_ready(m, page) && priority_of(m, page) > highest) {
            chosen = page;
            highest = priority_of(m, page);
        }
    }
    return chosen;
}

/*
 * "the running one stays if ready and no ready one has higher priority".  Where it stays, nothing
 * is written.  "On a change page 0's words are saved to the old page, then loaded from the new."
 */
void who_runs(uint8_t *m)
{
    unsigned old = m[RUNNING_PAGE];
    unsigned best = first_of_highest(m);

    if (old != 0 && is_ready(m, old) && priority_of(m, old) >= priority_of(m, best))
        return;
    if (old != 0)
        save_page_0(m, old);
    if (best != 0)
        load_page_0(m, best);
    store(m, RUNNING_PAGE, best);
    store(m, RUNNING_WHO, best != 0 ? m[at(best, WHO)] : 0u);
}
