/* The same history twice: two memories get the same orders, but for one that is left out, changed or added. */
#include <string.h>

#include "pairs.h"

uint8_t twin[BUFFER];

static enum twist how;
static unsigned orders_before;  /* the one that is done otherwise */
static bool twisted;

/* The same order with one thing changed; a step becomes an interrupt. */
static struct order another(const struct order *o)
{
    struct order odd = *o;
    unsigned n = below(o->count), bit = below(8);

    switch (o->what) {
    case FRESH: odd.number[0] = from_to(16, 47); break;
    case STEP:
    case INTERRUPT:
        odd.what = INTERRUPT;
        odd.number[0] = from_to(16, 50);
        odd.number[1] = 0;
        break;
    case BURST:
    case STORE:
        odd.value[n] = (uint8_t)(odd.value[n] ^ 1u << bit);
        break;
    case SETTINGS:
    case SET:
        odd.number[0] ^= 1;
        break;
    case WRITE: odd.number[2] ^= 1; break;
    }
    return odd;
}

static void follow(const struct order *o)
{
    struct order odd;

    if (twisted || orders_before > 0) {
        orders_before -= !twisted;
        carry_out(twin, o);
        return;
    }
    twisted = true;
    if (how == LEFT_OUT)
        return;
    odd = another(o);
    if (how == ADDED)
        carry_out(twin, o);
    carry_out(twin, &odd);
}

/* Calls and allowed stores only, so that both stay well-formed. */
bool play_twins(enum twist twist)
{
    enum kind was = kind;

    kind = KIND_CALLS;
    memcpy(twin, world, sizeof twin);
    how = twist;
    orders_before = below(chance(50) ? 4 : 20);
    twisted = false;
    beside = follow;
    for (unsigned left = chance(50) ? from_to(1, 3) : from_to(1, 12); left > 0; left--)
        keep_going();
    beside = NULL;
    kind = was;
    return twisted;
}
