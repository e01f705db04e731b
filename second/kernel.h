/*
 * The public calls of the kernel of the virtual computer.
 *
 * Every call is lent the first `length` words of a memory, one word a byte.
 * Any memory, any length and any numbers get an answer, and every call ends.
 * A call whose answer is a refusal leaves all memory untouched.
 */
#ifndef KERNEL_H
#define KERNEL_H

#include <stddef.h>
#include <stdint.h>

enum answer_kind {
    ANSWER_DONE,
    ANSWER_WAITS,       /* "put to wait (the runner now waits)" */
    ANSWER_HANDED_OUT,  /* "own code: program address, and the address n+1 or of the arguments" */
    ANSWER_FAULT,       /* "The answer gives its number and the name" */
    ANSWER_WRITTEN,     /* settings written, with the new length */
    ANSWER_REFUSED
};

struct answer {
    enum answer_kind kind;
    uint32_t number;     /* of a fault or a refusal */
    uint32_t address;    /* of a refusal 30-34: the lowest offending address */
    uint32_t place;      /* of a burst's refusal 24 or 25: the first bad pair, counted from 1; else 0 */
    uint32_t version;    /* of a refusal 29: the version that is above the reader's own; else 0 */
    size_t written;      /* settings written: how many bytes of the file are in use now */
    uint32_t name;       /* of the processor that made the fault */
    uint32_t program;    /* handed out: where the own code's program is */
    uint32_t arguments;  /* handed out: where its arguments are */
};

struct registers {
    uint32_t a, s, p, z, ci, lr, w;
};

/* The fresh start, with the number of the clock line and the divider. */
struct answer kernel_fresh(uint8_t *memory, size_t length, uint32_t line, uint32_t divider);

/*
 * The fresh start from a file of settings, and the processors that its newest block names.  The file is lent: its
 * bytes in use.  It is no part of the memory; an empty one may be NULL.
 */
struct answer kernel_fresh_from_settings(uint8_t *memory, size_t length, const uint8_t *file, size_t file_length);

/*
 * Writes a block of settings behind those of a file.  The file is lent with all its room, of which the first bytes
 * are in use.  File and block do not overlap; empty ones may be NULL.
 */
struct answer kernel_write_settings(uint8_t *file, size_t room, size_t used, const uint8_t *block, size_t length);

/* One virtual instruction by the running processor. */
struct answer kernel_instruction(uint8_t *memory, size_t length);

/* Delivery of an interrupt from outside; the class number belongs to 48-50. */
struct answer kernel_interrupt(uint8_t *memory, size_t length, uint32_t number, uint32_t class_number);

/*
 * Delivery of several interrupts in one call, as if one by one.  The list is lent: number and class number in turn,
 * one a byte.  It is no part of the memory; an empty one may be NULL.
 */
struct answer kernel_burst(uint8_t *memory, size_t length, const uint8_t *list, size_t list_length);

/* The running processor's registers; `registers` is written only if the answer is done. */
struct answer kernel_read_registers(const uint8_t *memory, size_t length, struct registers *registers);
struct answer kernel_set_registers(uint8_t *memory, size_t length, const struct registers *registers);

/* Done if the memory is well-formed, else a refusal: 20, or 30-34 with an address. */
struct answer kernel_judge(const uint8_t *memory, size_t length);

#endif
