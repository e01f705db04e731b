/* Short plays: single instructions, calls, codes, edges of the protected areas, faults. */
#include <string.h>

#include "generate.h"

/* What each instruction can come to by its own rules; by EXI 11 and 12 are added. */
static const struct {
    uint8_t code, outcome;
} own_rules[] = {
    { 0, 0 },  { 0, 3 },  { 1, 0 },  { 1, 1 },  { 1, 4 },  { 2, 0 },   { 3, 0 },   { 3, 5 },   { 4, 0 },
    { 4, 11 }, { 4, 12 }, { 5, 0 },  { 6, 0 },  { 6, 6 },  { 6, 11 },  { 7, 0 },   { 8, 0 },   { 8, 7 },
    { 8, 12 }, { 9, 0 },  { 9, 7 },  { 9, 12 }, { 10, 0 }, { 10, 7 },  { 10, 8 },  { 10, 12 }, { 11, 0 },
    { 11, 9 }, { 11, 12 }, { 11, 13 }, { 12, 0 }, { 12, 7 }, { 12, 10 }, { 12, 12 }, { 13, 0 }, { 13, 11 }, { 13, 12 },
    { 0, 11 }, { 0, 12 }, { 1, 11 }, { 1, 12 }, { 3, 11 }, { 5, 11 },  { 5, 12 },  { 6, 12 },  { 7, 11 },
    { 7, 12 }, { 8, 11 }, { 9, 11 }, { 10, 11 }, { 11, 11 }, { 12, 11 }, { 14, 2 }, { 15, 1 }
};
enum { RULES = sizeof own_rules / sizeof own_rules[0] };

/* True if the instruction may leave nobody ready to run. */
static bool risky(unsigned code, unsigned outcome)
{
    return outcome != 0 || code == 3 || code == 5 || code == 9 || ((code == 4 || code == 11) && world[FREE_LIST] == 0);
}

/* What was seldom reached is tried more often. */
static bool try_rare(bool only_faults)
{
    bool careful = !others_ready() && chance(92);
    unsigned long weight[RULES * FORMS], sum = 0, pick;
    struct plan p;
    unsigned i = 0;

    for (unsigned n = 0; n < RULES * FORMS; n++) {
        unsigned code = own_rules[n / 2].code, outcome = own_rules[n / 2].outcome;

        weight[n] = 1 + 240 / (1 + reached(code, n % 2, outcome));
        if (outcome == 0)
            weight[n] = only_faults ? 0 : weight[n] * 3;
        if (careful && risky(code, outcome))
            weight[n] = 0;
        sum += weight[n];
    }
    if (sum == 0)
        return false;
    pick = below((uint32_t)sum);
    while (pick >= weight[i])
        pick -= weight[i++];
    if (!build(&p, own_rules[i / 2].code, i % 2 == BY_EXI, own_rules[i / 2].outcome))
        return false;
    issue(&p);
    return true;
}

void scene_single(void)
{
    for (unsigned left = from_to(3, 9); left > 0 && !is_idle() && !full(); left--)
        for (unsigned tries = 0; tries < 8 && !try_rare(false); tries++)
            ;
}

/* Many faults one after the other, as long as somebody is left to run. */
void scene_faults(void)
{
    for (unsigned left = from_to(3, 15); left > 0 && others_ready() && !full(); left--)
        for (unsigned tries = 0; tries < 8 && !try_rare(true); tries++)
            ;
    scene_revive();
}

static struct registers own_registers(void)
{
    struct registers r = { 0 };

    (void)kernel_read_registers(world, lent, &r);
    return r;
}

static void set_at(unsigned lr)
{
    struct registers r = own_registers();

    r.lr = lr;
    order_set(&r);
}

static void some_set(void)
{
    struct registers r = own_registers();

    r.a = below(256);
    r.s = below(256);
    r.p = below(2);
    r.z = below(2);
    r.ci = below(2);
    r.w = below(16);
    if (chance(30))
        r.lr = from_to(TABLES_END, 7400);
    if (chance(20))
        r.a = 255;
    if (chance(20))
        r.s = 255;
    switch (below(12)) {  /* some of them out of range, by one where it can be */
    case 0: r.a = 256; break;
    case 1: r.s = chance(50) ? 256 : 65535; break;
    case 2: r.p = 2; break;
    case 3: r.z = 2; break;
    case 4: r.ci = 2; break;
    case 5: r.lr = chance(50) ? 8192 : 65535; break;
    case 6: r.w = 16; break;
    default: break;
    }
    order_set(&r);
}

static void bad_fresh(void)
{
    switch (below(5)) {
    case 0: order_fresh(15, 1); break;
    case 1: order_fresh(48, 1); break;
    case 2: order_fresh(from_to(16, 47), 0); break;
    case 3: order_fresh(from_to(16, 47), 256); break;
    default: order_fresh(below(16), 65535); break;
    }
}

/* A step on a word that is no instruction. */
static void step_on_nothing(void)
{
    uint8_t word = (uint8_t)(chance(50) ? 225 : below(224));

    if (!is_idle())
        put_allowed(get_lr(world, world[RUNNING_PAGE]), &word, 1);
    order_step();
}

static void some_words(void)
{
    unsigned address = chance(50) ? from_to(TABLES, 330) : below(8170);

    order_words(address, from_to(1, 32));
}

void scene_calls(void)
{
    for (unsigned left = from_to(1, 4); left > 0; left--) {
        switch (below(7)) {
        case 0: order_registers(); break;
        case 1: case 2: some_set(); break;
        case 3: bad_fresh(); break;
        case 4: order_judge(); break;
        case 5: some_words(); break;
        default: step_on_nothing(); break;
        }
        maybe_changes(60);
    }
}

/* Codes made, handed out direct and by EXI, and deleted. */
void scene_codes(void)
{
    unsigned own = pick_code(KIND_OWN, 2);
    struct plan p;

    if (is_idle())
        return;
    if (own == CODES || (chance(30) && pick_code(KIND_ABSENT, 2) < CODES)) {
        try_to(0, 0);
        own = pick_code(KIND_OWN, 2);
    }
    for (unsigned left = from_to(1, 4); left > 0 && own < CODES; left--)
        if (build(&p, own, chance(50), 0))
            issue(&p);
    if (chance(40))
        try_to(1, 0);
}

/* Late in the script: the built-in codes go, one after the other, and come back as own ones. */
void scene_ruin(void)
{
    struct plan p = { .code = 1, .bad_word = -1 };

    if (is_idle() || !near_end())
        return;
    p.exi = chance(50);
    p.index = chance(50);
    p.g.field = pick_code(KIND_BUILT_IN, 2);
    if (p.g.field == CODES || (p.g.field == 14 && chance(80)) || (p.exi && code_kind(world, 14) != KIND_BUILT_IN))
        return;
    issue(&p);
    scene_codes();
}

/* A code for an edge: absent, own, or any that is built in. */
static unsigned edge_code(void)
{
    unsigned code = below(CODES);

    if (chance(34))
        code = pick_code(KIND_ABSENT, 2);
    else if (chance(35))
        code = pick_code(KIND_OWN, 2);
    else if (chance(12))
        code = 11;  /* the longest */
    return code < CODES ? code : below(CODES);
}

/* An LR in a protected area, or so many words before one, or just behind one. */
static unsigned edge_lr(void)
{
    static const uint16_t inside[] = { 0, 5, 14, 15, 128, 129, 200, 350, 351, 7552, 7553, 8190, 8191 };
    static const uint8_t before[] = { 1, 1, 2, 2, 2, 2, 3, 3, 4, 4, 5, 6 };
    unsigned words = before[below(sizeof before)];

    if (chance(25))
        return inside[below(sizeof inside / sizeof inside[0])];
    if (chance(15))
        return chance(50) ? 16 : TABLES_END;
    return (chance(50) ? TABLES : at(FIRST_PAGE, 0)) - words;
}

/* LR at the first or last words of the protected areas. */
void scene_edges(void)
{
    struct plan p;
    unsigned code = edge_code();
    bool exi = chance(30);

    if (is_idle() || (!others_ready() && chance(75)))
        return;
    if (pick_code(KIND_OWN, 2) == CODES && chance(25))
        try_to(0, 0);
    set_at(edge_lr());
    if (chance(20))
        step_on_nothing();
    else if (build(&p, code, exi, code == 14 ? 2 : code == 15 ? 1 : chance(80) ? 0 : 12))
        issue(&p);
    if (!is_idle() && any_protected(get_lr(world, world[RUNNING_PAGE]), 5))
        set_at(from_to(TABLES_END, 7400));
}

static void fill_page_0(void)
{
    uint8_t values[16];

    for (unsigned i = 0; i < sizeof values; i++)
        values[i] = (uint8_t)below(256);
    if (chance(70))
        order_put(4, values, 3);
    if (chance(30))
        order_put(0, values, 16);
    order_put(16, values, 16);
}

/* Words of page 0, then something that lets another one run. */
void scene_context(void)
{
    for (unsigned left = from_to(1, 3); left > 0 && !is_idle() && others_ready(); left--) {
        struct look l = look_at(world);

        fill_page_0();
        switch (below(4)) {
        case 0: do_name(9, runner_of(&l)->name); break;
        case 1: do_wait(waited_for(), 1); break;
        case 2: do_name(8, existing_name(&l)); break;
        default: deliver_to_waiter(); break;
        }
        order_changes();
    }
}

/* ST1 or ST2 for those that are stopped. */
void scene_revive(void)
{
    struct look l = look_at(world);
    struct plan batch[HIGHEST_NAME];
    unsigned count = 0, most = from_to(2, HIGHEST_NAME);

    if (is_idle() || code_kind(world, 8) != KIND_BUILT_IN)
        return;
    for (unsigned i = 0; i < l.count; i++)
        if (l.one[i].stopped && count < most && chance(60))
            batch[count++] = (struct plan){ .code = 8, .bad_word = -1, .g = { .field = l.one[i].name } };
    if (chance(60)) {
        issue_batch(batch, count);
        return;
    }
    for (unsigned i = 0; i < count && !is_idle(); i++)
        do_name(chance(40) ? 10 : 8, batch[i].g.field);
}
