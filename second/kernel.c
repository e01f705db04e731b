/* The public calls: the refusals, which leave all memory untouched, and then the work. */
#include "kernel.h"

#include <string.h>

#include "machine.h"

static struct answer done(void)
{
    return (struct answer){ .kind = ANSWER_DONE };
}

static struct answer refused(unsigned number)
{
    return (struct answer){ .kind = ANSWER_REFUSED, .number = number };
}

/* Done, or refused: "20 length not 8,192"; then 30-34 with the address, if the memory is not well-formed. */
static struct answer fitness(const uint8_t *memory, size_t length)
{
    struct finding broken;

    if (length != WORDS)
        return refused(REFUSE_LENGTH);
    broken = judge(memory);
    if (broken.number != 0)
        return (struct answer){ .kind = ANSWER_REFUSED, .number = broken.number, .address = broken.address };
    return done();
}

/* "22 idle (instruction, registers)" */
static struct answer fitness_to_run(const uint8_t *memory, size_t length)
{
    struct answer fit = fitness(memory, length);

    if (fit.kind == ANSWER_DONE && memory[RUNNING_PAGE] == 0)
        fit = refused(REFUSE_IDLE);
    return fit;
}

/* "processor 1, priority 1, LR 2752 on page 236, running; 237-255 free in order; codes 0-14 built in" */
static void fill_fresh(uint8_t *m, unsigned line, unsigned divider)
{
    unsigned first = FIRST_PAGE;

    store(m, LINE, line);
    store(m, DIVIDER, divider);
    store(m, at(first, WHO), 1 * 16 + 1);
    set_lr(m, first, FIRST_LR);
    queue_join(m, PROCESSOR_LIST, LIST_LINK, first);
    store(m, RUNNING_PAGE, first);
    store(m, RUNNING_WHO, m[at(first, WHO)]);
    for (unsigned page = first + 1; page <= LAST_PAGE; page++)
        give_back(m, page);
    for (unsigned code = 0; code <= 14; code++)
        set_code(m, code, KIND_BUILT_IN, 0);
    store(m, FAULT_TABLE, 1);
}

/* "Fresh takes clock line and divider, clears page 0, pages 4-10 and 236-255" */
struct answer kernel_fresh(uint8_t *memory, size_t length, uint32_t line, uint32_t divider)
{
    if (length != WORDS)
        return refused(REFUSE_LENGTH);
    if (line < 16 || line > 47 || divider < 1 || divider > 255)
        return refused(REFUSE_VALUE);
    memset(memory, 0, PAGE_WORDS);
    memset(memory + TABLES, 0, TABLES_END - TABLES);
    memset(memory + at(FIRST_PAGE, 0), 0, PAGES * PAGE_WORDS);
    fill_fresh(memory, line, divider);
    return done();
}

struct answer kernel_instruction(uint8_t *memory, size_t length)
{
    struct answer fit = fitness_to_run(memory, length);

    return fit.kind == ANSWER_DONE ? run_instruction(memory) : fit;
}

/* Why one interrupt is refused, or 0: "24 interrupt not 16-50; 25 class number over 31, or nonzero below 48" */
static unsigned objection(uint32_t number, uint32_t class_number)
{
    if (number < 16 || number > 50)
        return REFUSE_INTERRUPT;
    if (class_number > 31 || (number < 48 && class_number != 0))
        return REFUSE_CLASS;
    return 0;
}

static void deliver_one(uint8_t *memory, unsigned number, unsigned class_number)
{
    serve_from_outside(memory, number, class_number);
    who_runs(memory);
}

struct answer kernel_interrupt(uint8_t *memory, size_t length, uint32_t number, uint32_t class_number)
{
    struct answer fit = fitness(memory, length);
    unsigned why = objection(number, class_number);

    if (fit.kind != ANSWER_DONE)
        return fit;
    if (why != 0)
        return refused(why);
    deliver_one(memory, number, class_number);
    return done();
}

/* "the first bad pair refuses the whole list and tells its place, from 1" */
static struct answer test_pairs(const uint8_t *list, size_t pairs)
{
    for (size_t i = 0; i < pairs; i++) {
        unsigned why = objection(list[2 * i], list[2 * i + 1]);

        if (why != 0)
            return (struct answer){ .kind = ANSWER_REFUSED, .number = why, .place = (uint32_t)i + 1 };
    }
    return done();
}

/* "A longer or odd list is refused by 27, after the memory checks and before 24." */
static struct answer fitness_of_list(const uint8_t *list, size_t list_length)
{
    if (list_length % 2 != 0 || list_length > 2 * MOST_PAIRS)
        return refused(REFUSE_LIST);
    return test_pairs(list, list_length / 2);
}

/* "Memory afterwards equals that of delivering them one by one, who runs included." */
struct answer kernel_burst(uint8_t *memory, size_t length, const uint8_t *list, size_t list_length)
{
    struct answer fit = fitness(memory, length);

    if (fit.kind == ANSWER_DONE)
        fit = fitness_of_list(list, list_length);
    if (fit.kind != ANSWER_DONE)
        return fit;
    for (size_t i = 0; i < list_length; i += 2)
        deliver_one(memory, list[i], list[i + 1]);
    return done();
}

struct answer kernel_read_registers(const uint8_t *memory, size_t length, struct registers *registers)
{
    struct answer fit = fitness_to_run(memory, length);
    unsigned page, bits;

    if (fit.kind != ANSWER_DONE)
        return fit;
    page = memory[RUNNING_PAGE];
    bits = memory[at(page, LR_HIGH)];
    registers->a = memory[at(page, REGISTER_A)];
    registers->s = memory[at(page, REGISTER_S)];
    registers->p = bits >> 7;
    registers->z = bits >> 6 & 1u;
    registers->ci = bits >> 5 & 1u;
    registers->lr = get_lr(memory, page);
    registers->w = memory[at(page, STATE)] & STATE_W;
    return done();
}

/* Set changes words 8-11 and the low four bits of word 12, nothing else; so the runner stays. */
struct answer kernel_set_registers(uint8_t *memory, size_t length, const struct registers *registers)
{
    struct answer fit = fitness_to_run(memory, length);
    const struct registers *in = registers;
    unsigned page;

    if (fit.kind != ANSWER_DONE)
        return fit;
    if (in->a > 255 || in->s > 255 || in->p > 1 || in->z > 1 || in->ci > 1 || in->lr >= WORDS || in->w > 15)
        return refused(REFUSE_VALUE);
    page = memory[RUNNING_PAGE];
    store(memory, at(page, REGISTER_A), in->a);
    store(memory, at(page, REGISTER_S), in->s);
    store(memory, at(page, LR_HIGH), in->p << 7 | in->z << 6 | in->ci << 5);
    set_lr(memory, page, in->lr);
    store(memory, at(page, STATE), (memory[at(page, STATE)] & ~(unsigned)STATE_W) | in->w);
    return done();
}

struct answer kernel_judge(const uint8_t *memory, size_t length)
{
    return fitness(memory, length);
}
