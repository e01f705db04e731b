/* The orders of the generator's scenes, done to its copy and not written. */
#include <string.h>

#include "alike.h"

enum { MOST_STORES = 16384 };

uint8_t world[BUFFER];
size_t lent = WORDS;
struct answer last;
bool late;
void (*beside)(const struct order *order);

static struct {
    uint16_t address;
    uint8_t old;
} stores[MOST_STORES];
static unsigned stored;
static bool kept;

void keep_stores(void)
{
    stored = 0;
    kept = true;
}

unsigned stores_made(void)
{
    return stored;
}

void undo_stores(void)
{
    for (; stored > 0; stored--)
        world[stores[stored - 1].address] = stores[stored - 1].old;
    kept = false;
}

/* What cannot be kept is not stored; only the generator's copy is kept. */
static void store_words(uint8_t *m, unsigned address, const uint8_t *values, unsigned count)
{
    bool keep = kept && m == world;

    for (unsigned i = 0; i < count; i++, address++) {
        if (keep && stored == MOST_STORES)
            return;
        if (keep) {
            stores[stored].address = (uint16_t)address;
            stores[stored++].old = m[address];
        }
        m[address] = values[i];
    }
}

bool full(void)
{
    return false;
}

bool near_end(void)
{
    return late;
}

static struct answer carry_out_settings(uint8_t *m, const unsigned *n)
{
    uint8_t file[BUFFER];

    if (n[0] + n[1] > BUFFER)
        return last;
    memcpy(file, m + n[0], n[1]);
    return kernel_fresh_from_settings(m, lent, file, n[1]);
}

static struct answer carry_out_write(uint8_t *m, const struct writing *w)
{
    uint8_t file[BUFFER], block[BUFFER];
    struct answer answer;

    if (w->file + w->room > BUFFER || w->block + w->length > BUFFER)
        return last;
    memcpy(file, m + w->file, w->room);
    memcpy(block, m + w->block, w->length);
    answer = kernel_write_settings(file, w->room, w->used, block, w->length);
    store_words(m, w->file, file, w->room);
    return answer;
}

static struct answer carry_out_set(uint8_t *m, const unsigned *n)
{
    struct registers r = { n[0], n[1], n[2], n[3], n[4], n[5], n[6] };

    return kernel_set_registers(m, lent, &r);
}

struct answer carry_out(uint8_t *m, const struct order *o)
{
    const unsigned *n = o->number;

    switch (o->what) {
    case FRESH: return kernel_fresh(m, lent, n[0], n[1]);
    case STEP: return kernel_instruction(m, lent);
    case INTERRUPT: return kernel_interrupt(m, lent, n[0], n[1]);
    case BURST: return kernel_burst(m, lent, o->value, o->count);
    case SETTINGS: return carry_out_settings(m, n);
    case WRITE: return carry_out_write(m, &(struct writing){ n[0], n[1], n[2], n[3], n[4] });
    case SET: return carry_out_set(m, n);
    case STORE: store_words(m, n[0], o->value, o->count); break;
    }
    return last;
}

static void play(const struct order *o)
{
    last = carry_out(world, o);
    if (beside != NULL)
        beside(o);
}

void order_fresh(unsigned line, unsigned divider)
{
    play(&(struct order){ .what = FRESH, .number = { line, divider } });
}

void order_step(void)
{
    play(&(struct order){ .what = STEP });
}

void order_interrupt(unsigned number, unsigned class_number)
{
    play(&(struct order){ .what = INTERRUPT, .number = { number, class_number } });
}

unsigned burst_text(const struct list *list, char text[LONGEST_LINE + 1])
{
    text[0] = '\0';
    return list->count;
}

void order_burst(const struct list *list)
{
    struct order o = { .what = BURST, .count = list->count };

    for (unsigned i = 0; i < list->count; i++)
        o.value[i] = (uint8_t)(list->number[i] > 255 ? 255 : list->number[i]);
    play(&o);
}

void order_burst_as(const char *line, const struct list *list)
{
    (void)line;
    order_burst(list);
}

void order_settings(unsigned address, unsigned length)
{
    play(&(struct order){ .what = SETTINGS, .number = { address, length } });
}

void order_write(const struct writing *w)
{
    play(&(struct order){ .what = WRITE, .number = { w->file, w->room, w->used, w->block, w->length } });
}

void order_set(const struct registers *r)
{
    play(&(struct order){ .what = SET, .number = { r->a, r->s, r->p, r->z, r->ci, r->lr, r->w } });
}

static bool host_may(unsigned address)
{
    return address < PAGE_WORDS || (address < WORDS && !is_protected(address));
}

/* As many of the words as the host may store, from the first on. */
void put_allowed(unsigned address, const uint8_t *values, unsigned count)
{
    unsigned allowed = 0;

    while (allowed < count && host_may(address + allowed))
        allowed++;
    if (allowed > 0)
        order_break(address, values, allowed);
}

void order_put(unsigned address, const uint8_t *values, unsigned count)
{
    put_allowed(address, values, count);
}

void order_break(unsigned address, const uint8_t *values, unsigned count)
{
    struct order o = { .what = STORE, .number = { address }, .count = count };

    if (address + count > BUFFER || count > sizeof o.value)
        return;
    memcpy(o.value, values, count);
    play(&o);
}

void order_length(unsigned length)
{
    if (length <= BUFFER)
        lent = length;
}

/* What only answers or prints. */

void order_registers(void)
{
    struct registers ignored;

    last = kernel_read_registers(world, lent, &ignored);
}

void order_judge(void)
{
    last = kernel_judge(world, lent);
}

void order_words(unsigned address, unsigned count)
{
    (void)address;
    (void)count;
}

void order_changes(void)
{
}

void order_raw(const char *line)
{
    (void)line;
}

void maybe_changes(unsigned percent)
{
    (void)percent;
}
