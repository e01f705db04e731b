/* Writing orders, and doing to the generator's own copy what the script program will do. */
#include <stdio.h>
#include <string.h>

#include "generate.h"

uint8_t world[BUFFER];
size_t lent = WORDS;
struct answer last;

static unsigned long written, most;

bool full(void)
{
    return written >= most;
}

/* The last sixth of the script, where it does no harm to wear the machine out. */
bool near_end(void)
{
    return written > most - most / 6;
}

void start_orders(unsigned long limit)
{
    most = limit;
}

static void write_line(const char *line)
{
    puts(line);
    written++;
}

/* The same order in other clothes: more spaces, leading zeros, a comment. */
static void dress(const char *plain, char *dressed)
{
    size_t length = 0;
    unsigned extras = 40;  /* so that no line grows over 255 characters */
    char before = ' ';

    for (unsigned i = below(4); i > 0; i--)
        dressed[length++] = ' ';
    for (; *plain != '\0'; before = *plain++) {
        bool starts_number = before == ' ' && *plain >= '0' && *plain <= '9';

        if (extras > 0 && ((*plain == ' ' && chance(30)) || (starts_number && chance(10)))) {
            dressed[length++] = starts_number ? '0' : ' ';
            extras--;
        }
        dressed[length++] = *plain;
    }
    dressed[length] = '\0';
    if (chance(30))
        strcat(dressed, "    ");
    if (chance(30))
        strcat(dressed, chance(50) ? "# 1 2 3" : "#step");
}

static void write_order(const char *plain)
{
    char dressed[256];

    if (kind == KIND_PARSER && chance(35) && strlen(plain) < 150) {
        dress(plain, dressed);
        write_line(dressed);
        return;
    }
    write_line(plain);
}

static void answered(struct answer answer)
{
    last = answer;
    reach_answer(&last);
    reach_told(world, &last);
}

void order_fresh(unsigned line, unsigned divider)
{
    char text[64];

    if (full())
        return;
    snprintf(text, sizeof text, "fresh %u %u", line, divider);
    write_order(text);
    answered(kernel_fresh(world, lent, line, divider));
}

void order_step(void)
{
    uint8_t before[BUFFER];

    if (full())
        return;
    write_order("step");
    memcpy(before, world, sizeof before);
    answered(kernel_instruction(world, lent));
    reach_step(before, &last);
}

void order_interrupt(unsigned number, unsigned class_number)
{
    uint8_t before[BUFFER];
    char text[64];

    if (full())
        return;
    if (class_number == 0 && chance(50))
        snprintf(text, sizeof text, "interrupt %u", number);
    else
        snprintf(text, sizeof text, "interrupt %u %u", number, class_number);
    write_order(text);
    memcpy(before, world, sizeof before);
    answered(kernel_interrupt(world, lent, number, class_number));
    reach_interrupt(before, number, &last);
}

/* The line of a burst, and how many numbers of the list it holds. */
unsigned burst_text(const struct list *list, char text[LONGEST_LINE + 1])
{
    size_t length = 5;
    unsigned i;

    memcpy(text, "burst", 6);
    for (i = 0; i < list->count; i++) {
        char number[8];
        size_t more = (size_t)snprintf(number, sizeof number, " %u", (unsigned)list->number[i]);

        if (length + more > LONGEST_LINE)
            break;
        memcpy(text + length, number, more + 1);
        length += more;
    }
    return i;
}

static void call_burst(const struct list *list, unsigned count)
{
    uint8_t before[BUFFER], bytes[LONGEST_LIST] = { 0 };

    for (unsigned i = 0; i < count; i++)
        bytes[i] = (uint8_t)(list->number[i] > 255 ? 255 : list->number[i]);
    memcpy(before, world, sizeof before);
    answered(kernel_burst(world, lent, bytes, count));
    reach_burst(before, bytes, count, &last);
}

/* A burst of the list, or of as much of it as a line holds. */
void order_burst(const struct list *list)
{
    char text[LONGEST_LINE + 1];
    unsigned count;

    if (full())
        return;
    count = burst_text(list, text);
    write_order(text);
    call_burst(list, count);
}

/* The same with a line that says it in other clothes. */
void order_burst_as(const char *line, const struct list *list)
{
    if (full())
        return;
    write_line(line);
    call_burst(list, list->count);
}

static bool is_part(unsigned address, unsigned count)
{
    bool allowed = address + count <= BUFFER;

    reach_parts(address + count, allowed);
    if (!allowed)
        mark(MARK_NOT_ALLOWED);
    return allowed;
}

void order_settings(unsigned address, unsigned length)
{
    uint8_t before[BUFFER], file[BUFFER];
    char text[64];

    if (full())
        return;
    snprintf(text, sizeof text, "settings %u %u", address, length);
    write_order(text);
    if (!is_part(address, length))
        return;
    memcpy(before, world, sizeof before);
    memcpy(file, world + address, length);
    answered(kernel_fresh_from_settings(world, lent, file, length));
    reach_settings(before, address, file, length, &last);
}

void order_write(const struct writing *w)
{
    uint8_t before[BUFFER], file[BUFFER], block[BUFFER];
    char text[96];

    if (full())
        return;
    snprintf(text, sizeof text, "write %u %u %u %u %u", w->file, w->room, w->used, w->block, w->length);
    write_order(text);
    if (!is_part(w->file, w->room) || !is_part(w->block, w->length))
        return;
    memcpy(file, world + w->file, w->room);
    memcpy(before, file, w->room);
    memcpy(block, world + w->block, w->length);
    answered(kernel_write_settings(file, w->room, w->used, block, w->length));
    memcpy(world + w->file, file, w->room);
    reach_write(before, w, block, &last);
}

void order_registers(void)
{
    struct registers ignored;

    if (full())
        return;
    write_order("registers");
    answered(kernel_read_registers(world, lent, &ignored));
}

void order_set(const struct registers *r)
{
    char text[96];

    if (full())
        return;
    snprintf(text, sizeof text, "set %u %u %u %u %u %u %u", (unsigned)r->a, (unsigned)r->s, (unsigned)r->p,
             (unsigned)r->z, (unsigned)r->ci, (unsigned)r->lr, (unsigned)r->w);
    write_order(text);
    answered(kernel_set_registers(world, lent, r));
}

void order_judge(void)
{
    if (full())
        return;
    write_order("judge");
    answered(kernel_judge(world, lent));
    reach_page_9(&last);
}

static void write_store(const char *name, unsigned address, const uint8_t *values, unsigned count)
{
    char text[256];
    int length = snprintf(text, sizeof text, "%s %u", name, address);

    for (unsigned i = 0; i < count; i++)
        length += snprintf(text + length, sizeof text - (size_t)length, " %u", (unsigned)values[i]);
    write_order(text);
}

static bool host_may(unsigned address)
{
    return address < PAGE_WORDS || (address < WORDS && !is_protected(address));
}

void order_put(unsigned address, const uint8_t *values, unsigned count)
{
    bool allowed = true;

    if (full() || count == 0 || count > LONGEST_PUT)
        return;
    write_store("put", address, values, count);
    for (unsigned i = 0; i < count; i++)
        allowed = allowed && host_may(address + i);
    if (allowed)
        memcpy(world + address, values, count);
    else
        mark(MARK_NOT_ALLOWED);
}

void order_break(unsigned address, const uint8_t *values, unsigned count)
{
    if (full() || count == 0 || count > LONGEST_PUT)
        return;
    write_store("break", address, values, count);
    if (address + count <= BUFFER)
        memcpy(world + address, values, count);
    else
        mark(MARK_NOT_ALLOWED);
}

void order_length(unsigned length)
{
    char text[64];

    if (full())
        return;
    snprintf(text, sizeof text, "length %u", length);
    write_order(text);
    if (length <= BUFFER)
        lent = length;
    else
        mark(MARK_NOT_ALLOWED);
}

void order_words(unsigned address, unsigned count)
{
    char text[64];

    if (full())
        return;
    snprintf(text, sizeof text, "words %u %u", address, count);
    write_order(text);
    if (count < 1 || count > LONGEST_PUT || address + count > BUFFER)
        mark(MARK_NOT_ALLOWED);
}

void order_changes(void)
{
    if (!full())
        write_order("changes");
}

/* A line that changes nothing: not understood, empty or a comment. */
void order_raw(const char *line)
{
    if (!full())
        write_line(line);
}

/* Puts as many of the words as the host may store, from the first on. */
void put_allowed(unsigned address, const uint8_t *values, unsigned count)
{
    unsigned allowed = 0;

    while (allowed < count && host_may(address + allowed))
        allowed++;
    if (allowed < count && chance(4))
        allowed = count;  /* now and then try it all, and be told that it is not allowed */
    order_put(address, values, allowed);
}

void maybe_changes(unsigned percent)
{
    if (chance(percent))
        order_changes();
}
