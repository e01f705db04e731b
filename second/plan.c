/* One planned instruction: its words, direct or by EXI, put where the runner's LR points, and run. */
#include <string.h>

#include "generate.h"

/* The largest value of each argument word by EXI; 0 ends (no argument is as small as that). */
static const uint8_t limits[CODES][6] = {
    { 15, 31, 255 }, { 15 }, { 0 }, { 255, 255 }, { 15, 7, 31, 255 }, { 15, 7 }, { 15, 7, 31, 255 },
    { 15, 7, 31, 255 }, { 15 }, { 15 }, { 15, 31, 255 }, { 15, 15, 15, 31, 255 }, { 15 }, { 15, 7, 31, 255 },
    { 0 }, { 0 }
};

static bool overlaps(unsigned a, unsigned a_count, unsigned b, unsigned b_count)
{
    return a < b + b_count && b < a + a_count;
}

static unsigned any_place(unsigned count)
{
    unsigned choice = below(100);

    if (choice < 60)
        return from_to(TABLES_END, at(FIRST_PAGE, 0) - count);
    if (choice < 72 && count < 90)
        return from_to(PAGE_WORDS, TABLES - count);
    if (choice < 77 && count <= 8)
        return from_to(16, PAGE_WORDS - count);
    if (choice < 90)
        return at(FIRST_PAGE, 0) - count;  /* up to the last unprotected word */
    if (choice < 95 && count < 90)
        return TABLES - count;
    return TABLES_END;
}

/* So many unprotected words in a row, away from the words at LR. */
unsigned place(unsigned count)
{
    unsigned lr = is_idle() ? 0 : get_lr(world, world[RUNNING_PAGE]);
    unsigned address = any_place(count);

    for (unsigned tries = 0; tries < 10 && overlaps(address, count, lr, 5); tries++)
        address = any_place(count);
    return address;
}

/* So many words in a row of which at least one is protected, often only the last or the first. */
unsigned place_protected(unsigned count)
{
    switch (below(7)) {
    case 0: return at(FIRST_PAGE, 0) - count + 1;
    case 1: return TABLES - count + 1;
    case 2: return at(FIRST_PAGE, 0) - below(count);
    case 3: return TABLES_END - 1;
    case 4: return 15;
    case 5: return chance(50) ? WORDS - 1 : below(16);
    default: return from_to(at(FIRST_PAGE, 0), WORDS - 1);
    }
}

static uint8_t byte(unsigned value)
{
    return (uint8_t)(value & 255u);
}

/* The direct form; bits that are not used get anything. */
unsigned direct_words(const struct plan *p, uint8_t *words)
{
    const struct arguments *g = &p->g;
    unsigned junk = below(256), high = g->address / 256, code = p->code;

    words[0] = INSTRUCTION;
    words[1] = byte(code * 16 + (code == 2 || code == 3 ? junk % 16 : g->field));
    switch (code) {
    case 0: case 10:
        words[2] = byte((junk & 224u) + high);
        words[3] = byte(g->address);
        return 4;
    case 3:
        words[2] = byte(g->interrupt);
        words[3] = byte(g->count);
        return 4;
    case 5:
        words[2] = byte(g->flag * 32 + junk % 32);
        return 3;
    case 4: case 6: case 7: case 13: case 14:
        words[2] = byte(g->flag * 32 + high);
        words[3] = byte(g->address);
        return 4;
    case 11:
        words[2] = byte(g->priority * 16 + g->w);
        words[3] = byte((junk & 224u) + high);
        words[4] = byte(g->address);
        return 5;
    default:
        return 2;
    }
}

static unsigned plain_exi_words(const struct plan *p, uint8_t *words)
{
    const struct arguments *g = &p->g;
    unsigned n = 0;

    switch (p->code) {
    case 2: case 14: case 15:
        return 0;
    case 3:
        words[n++] = byte(g->interrupt);
        words[n++] = byte(g->count);
        return n;
    case 11:
        words[n++] = byte(g->field);
        words[n++] = byte(g->priority);
        words[n++] = byte(g->w);
        break;
    default:
        words[n++] = byte(g->field);
        if (limits[p->code][1] == 7)
            words[n++] = byte(g->flag);
        if (limits[p->code][1] == 0 || p->code == 5)
            return n;
        break;
    }
    words[n++] = byte(g->address / 256);
    words[n++] = byte(g->address);
    return n;
}

unsigned exi_words(const struct plan *p, uint8_t *words)
{
    unsigned count = plain_exi_words(p, words);

    if (p->bad_word >= 0 && (unsigned)p->bad_word < count) {
        unsigned limit = limits[p->code][p->bad_word];

        words[p->bad_word] = byte(chance(60) ? limit + 1 : from_to(limit + 1, 255));
    }
    return count;
}

/* Some argument word that can go beyond its field, or 6 if none can. */
unsigned pick_bad_word(unsigned code)
{
    unsigned found[6], count = 0;

    for (unsigned i = 0; i < 6 && limits[code][i] != 0; i++)
        if (limits[code][i] != 255)
            found[count++] = i;
    return count > 0 ? found[below(count)] : 6;
}

/* What must stand in an instruction so that X register XN leads to `address`. */
unsigned before_index(unsigned address, unsigned xn)
{
    unsigned x = below(WORDS);
    uint8_t words[2] = { byte(below(8) * 32 + x / 256), byte(x) };

    if (chance(60))
        x = read_address(world, 24 + 2 * xn);  /* as it is: often a word that another has left there */
    else
        order_put(24 + 2 * xn, words, 2);
    return wrap(address + WORDS - x);
}

/* The arguments right behind the EXI itself, which saves an order. */
static unsigned point_behind(const struct plan *p, unsigned lr, uint8_t *program)
{
    struct plan exi = { .code = 14, .g = { .field = p->code, .flag = below(4), .address = lr + 4 } };
    unsigned length = direct_words(&exi, program);

    return length + exi_words(p, program + length);
}

/* Puts the arguments and fills in the EXI that points to them. */
static unsigned point(const struct plan *p, unsigned lr, uint8_t *program)
{
    uint8_t words[6];
    unsigned count = exi_words(p, words);
    unsigned xn = below(4), from;
    struct plan exi = { .code = 14, .g = { .field = p->code } };

    if (!p->index && !p->protected_words && lr < WORDS - 16 && !any_protected(lr, 4 + count) && chance(70))
        return point_behind(p, lr, program);
    if (p->protected_words)
        from = place_protected(count > 0 ? count : 1);
    else
        from = count > 0 ? place(count) : below(WORDS);  /* with no argument it may be protected */
    if (count > 0)
        put_allowed(from, words, count);
    exi.g.flag = xn;
    exi.g.address = from;
    if (p->index) {
        exi.g.address = before_index(from, xn);
        exi.g.flag = 4 + xn;
    }
    return direct_words(&exi, program);
}

void issue(const struct plan *p)
{
    uint8_t program[16];
    unsigned count, lr;

    if (is_idle()) {
        order_step();
        return;
    }
    lr = get_lr(world, world[RUNNING_PAGE]);
    count = p->exi ? point(p, lr, program) : direct_words(p, program);
    put_allowed(lr, program, count);
    order_step();
    maybe_changes(65);
}

/* Several direct instructions in one put, then so many steps as long as the same one runs. */
void issue_batch(const struct plan *plans, unsigned count)
{
    uint8_t program[LONGEST_PUT];
    unsigned length = 0, fit = 0, runner = world[RUNNING_PAGE];

    while (fit < count && length + 5 <= LONGEST_PUT)
        length += direct_words(&plans[fit++], program + length);
    if (runner == 0 || fit == 0 || any_protected(get_lr(world, runner), length))
        return;
    order_put(get_lr(world, runner), program, length);
    for (unsigned i = 0; i < fit && world[RUNNING_PAGE] == runner; i++) {
        order_step();
        maybe_changes(60);
    }
}
