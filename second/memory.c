/* Addresses, protected words and the table of codes. */
#include "machine.h"

/* "Protected (house): addresses 0-15, 128-351, 7552-8191." */
bool is_protected(unsigned address)
{
    return address < 16 || (address >= TABLES && address < TABLES_END) || address >= at(FIRST_PAGE, 0);
}

bool any_protected(unsigned address, unsigned count)
{
    for (unsigned i = 0; i < count; i++)
        if (is_protected(wrap(address + i)))
            return true;
    return false;
}

/* "An address is 13 bits" */
unsigned wrap(unsigned address)
{
    return address % WORDS;
}

/* "the five high bits in the first of two words, the low eight in the second" */
unsigned read_address(const uint8_t *m, unsigned address)
{
    return (m[address] & 31u) * 256u + m[wrap(address + 1)];
}

/* "code c at words 2c, 2c+1: kind in three bits, then an address" */
unsigned code_kind(const uint8_t *m, unsigned code)
{
    return m[CODE_TABLE + 2 * code] >> 5;
}

unsigned code_program(const uint8_t *m, unsigned code)
{
    return read_address(m, CODE_TABLE + 2 * code);
}

void set_code(uint8_t *m, unsigned code, unsigned kind, unsigned program)
{
    store(m, CODE_TABLE + 2 * code, kind * 32 + program / 256);
    store(m, CODE_TABLE + 2 * code + 1, program);
}
