/* Memories that the scenes of the generator reach: they go on from settings or from a fresh start, for some scenes. */
#include <string.h>

#include "alike.h"

static uint8_t lives[BUFFER];    /* where the scenes go on */
static unsigned scenes_left;

static void begin_life(void)
{
    static const enum kind kinds[] = { KIND_CALLS, KIND_CALLS, KIND_CALLS, KIND_CLOCK };
    unsigned divider = chance(60) ? from_to(1, 3) : from_to(1, 255);

    kind = kinds[below(4)];
    late = chance(25);
    scenes_left = from_to(4, 80);
    if (chance(70)) {
        start_with_crew(divider);
        scene_revive();
    } else {
        order_fresh(from_to(16, 47), divider);
        if (chance(70))
            raise_first();
    }
    if (chance(80))
        scene_grow();
}

/* What the scenes put into words that the host may write is no matter here, but stays. */
void live_on(void)
{
    memcpy(world, lives, sizeof world);
    lent = WORDS;
    if (scenes_left == 0)
        begin_life();
    scenes_left--;
    keep_going();
    if (chance(10))
        scene_forge();
    lent = WORDS;
    memcpy(lives, world, sizeof lives);
}
