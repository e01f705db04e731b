/* What the generator plays: numbers that depend on the seed only, and which scene comes next. */
#include "generate.h"

enum kind kind;

static uint64_t state;

void start_draws(unsigned long seed)
{
    state = (uint64_t)seed * 2 + 1;
}

/* The numbers are those of the known generator splitmix64. */
static uint64_t next(void)
{
    uint64_t z = state += UINT64_C(0x9e3779b97f4a7c15);

    z = (z ^ z >> 30) * UINT64_C(0xbf58476d1ce4e5b9);
    z = (z ^ z >> 27) * UINT64_C(0x94d049bb133111eb);
    return z ^ z >> 31;
}

uint32_t below(uint32_t end)
{
    return end == 0 ? 0 : (uint32_t)(next() >> 16) % end;
}

unsigned from_to(unsigned low, unsigned high)
{
    return low >= high ? low : low + below(high - low + 1);
}

bool chance(unsigned percent)
{
    return below(100) < percent;
}

bool may_break(void)
{
    return kind == KIND_BROKEN || kind == KIND_JUDGE;
}

/* How often a scene comes, by kind: calls, broken, judge, parser, clock. */
static const struct {
    void (*play)(void);
    unsigned weight[KINDS];
} scenes[] = {
    { scene_single, { 76, 54, 34, 30, 20 } }, { scene_calls, { 8, 6, 4, 10, 5 } },
    { scene_interrupts, { 14, 10, 6, 6, 8 } }, { scene_codes, { 6, 5, 2, 4, 3 } },
    { scene_edges, { 46, 29, 4, 9, 8 } },     { scene_context, { 8, 6, 2, 3, 4 } },
    { scene_revive, { 6, 5, 5, 3, 3 } },      { scene_faults, { 16, 9, 3, 2, 2 } },
    { scene_clock, { 3, 5, 2, 1, 34 } },      { scene_gather, { 6, 5, 5, 2, 12 } },
    { scene_grow, { 3, 2, 3, 2, 4 } },        { scene_hunger, { 9, 9, 16, 3, 3 } },
    { scene_relieve, { 5, 4, 3, 2, 2 } },     { scene_reap, { 7, 5, 3, 2, 2 } },
    { scene_notice, { 5, 4, 2, 2, 1 } },      { scene_messages, { 7, 5, 8, 3, 3 } },
    { scene_mailbox, { 24, 16, 6, 6, 6 } },   { scene_address, { 7, 5, 1, 3, 3 } },
    { scene_halt, { 5, 4, 3, 2, 3 } },        { scene_ruin, { 16, 12, 2, 4, 4 } },
    { scene_break, { 0, 150, 660, 0, 0 } },   { scene_harmless_break, { 0, 20, 20, 0, 0 } },
    { scene_nobody, { 0, 4, 10, 0, 0 } },     { scene_length, { 0, 3, 2, 3, 0 } },
    { scene_lines, { 0, 2, 1, 60, 1 } },      { scene_bursts, { 42, 26, 18, 18, 20 } },
    { scene_bad_bursts, { 38, 24, 16, 20, 18 } },
    { scene_muster, { 21, 14, 9, 8, 12 } },   { scene_lives, { 18, 11, 5, 5, 5 } },
    { scene_heirs, { 10, 6, 2, 2, 2 } },      { scene_estate, { 9, 6, 2, 2, 2 } },
    { scene_keepsakes, { 12, 9, 2, 3, 3 } },  { scene_forge, { 0, 20, 14, 0, 0 } },
    { scene_ranks, { 9, 7, 3, 4, 4 } },       { scene_second_thoughts, { 6, 4, 2, 2, 2 } },
    { scene_pledges, { 8, 8, 5, 3, 3 } },     { scene_promotions, { 0, 8, 8, 0, 0 } },
    { scene_starts, { 3, 3, 6, 2, 3 } },      { scene_damages, { 34, 30, 44, 13, 24 } },
    { scene_writes, { 34, 30, 44, 13, 24 } }, { scene_parts, { 8, 8, 14, 4, 7 } }
};
enum { SCENES = sizeof scenes / sizeof scenes[0] };

static void play_some(void)
{
    unsigned sum = 0, pick, i = 0;

    for (unsigned n = 0; n < SCENES; n++)
        sum += scenes[n].weight[kind];
    pick = below(sum);
    while (pick >= scenes[i].weight[kind])
        pick -= scenes[i++].weight[kind];
    scenes[i].play();
}

/* With nobody beside the runner, waking and starting others comes first; where all are low, at times higher ones. */
void keep_going(void)
{
    struct look l = look_at(world);

    if (l.count == 0)
        unstick();
    else if (is_idle())
        scene_idle();
    else if (is_flat(&l) && chance(6))
        lift();
    else if (runner_of(&l)->grant != 0 && l.ready > 1 && chance(40) && create_anew())
        return;
    else if (l.ready < 2 && l.count > 1 && chance(60))
        scene_revive();
    else if (l.ready < 2 && chance(40))
        scene_grow();
    else if (l.ready < 2 && chance(30))
        scene_interrupts();
    else
        play_some();
}
