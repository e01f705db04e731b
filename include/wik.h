/* The kernel for hosts in C: eight calls on one memory of 8,192 words and one on a file of settings, proved in crates/kernel and exported by crates/host_c.
 *
 * `./host --library` builds the library for x86-64 Linux and leaves it, with this header, in build/:
 *     gcc -std=c11 -I build -o HOST HOST.c build/libhost.a
 * `./host FILE.c` does that and runs the program.
 *
 * Every call takes any memory of any length, any bytes and any numbers, answers, and ends. It reads and writes only what is lent to it and keeps nothing
 * between calls. docs/HOSTS.md says what a host may do between calls.
 *
 * ANSWERS. Every call answers with one number of 64 bits (crates/host/specs/Encoded.antt):
 *   bits 0-7    the number of the answer: WIK_DONE, WIK_WAITS, WIK_HANDED_OUT, WIK_WRITTEN, a fault 1-13 or a refusal 20, 22-35
 *   bits 8-23   of WIK_HANDED_OUT the address of the program; of a fault the name of the processor that it stopped; of a refusal 30-34 the address of
 *               what is broken; of a refusal 24 or 25 of wik_burst the place of the bad pair, from 1; of a refusal 29 the version
 *   bits 24-39  of WIK_HANDED_OUT the address of word n+1, or of the arguments
 * Where it answers WIK_DONE, wik_read_registers puts the registers into bits 8-43: see there.
 *
 * PROMISES, of every call:
 *   - A refusal leaves every word and every byte as it was.
 *   - A memory whose length is not 8,192 is refused with 20, by every call that is lent one.
 *   - A memory that is not well-formed is refused with 30, 31, 32, 33 or 34 and an address, by every call but wik_fresh and wik_fresh_from_settings. From
 *     an accepted one of these two on, none of the five comes, as long as the host writes only page 0 (words 0-31) and words that are not protected (all
 *     but 0-15, 128-351 and 7552-8191).
 *   - From there on, and as long as the host writes no more than that, the highest priority among the processors never grows until the next fresh start: a
 *     processor keeps its own, and creates none above itself.
 *   - Answer and memory are exactly those of the definitions in crates/model/specs.
 */
#ifndef WIK_H
#define WIK_H

#include <stddef.h>
#include <stdint.h>

#ifdef __cplusplus
extern "C" {
#endif

enum { WIK_WORDS = 8192 };

enum wik_number {
    WIK_DONE = 0,
    WIK_WAITS = 60,             /* the processor that ran now waits */
    WIK_HANDED_OUT = 61,        /* an own code: the host runs its program */
    WIK_WRITTEN = 62,           /* settings: the new length is wik_new_length */

    WIK_ABSENT_CODE = 1,        /* faults: they stop the processor that ran, and enter page 9 while it has room */
    WIK_EXI_OF_EXI = 2,
    WIK_CODE_EXISTS = 3,
    WIK_KEPT_CODE = 4,
    WIK_BAD_WAIT = 5,
    WIK_NO_MATCH = 6,
    WIK_NO_NAME = 7,
    WIK_NOT_STARTABLE = 8,
    WIK_NAME_EXISTS = 9,
    WIK_NOT_STOPPED = 10,
    WIK_PROTECTED = 11,
    WIK_BAD_ARGUMENT = 12,
    WIK_ABOVE_ITSELF = 13,      /* CRP with a priority above that of the one that runs it */

    WIK_WRONG_LENGTH = 20,      /* refusals: nothing has changed */
    WIK_IDLE = 22,              /* nobody runs: deliver an interrupt */
    WIK_NATIVE = 23,            /* the word at LR is not 224: a native instruction, which this kernel does not run */
    WIK_NO_INTERRUPT = 24,
    WIK_WRONG_CLASS = 25,
    WIK_OUT_OF_RANGE = 26,
    WIK_WRONG_LIST = 27,
    WIK_BROKEN_LAYOUT = 28,     /* settings: trailer or newest block */
    WIK_TOO_NEW = 29,           /* settings: of a version above 3, which is told */

    WIK_BROKEN_PAGES = 30,      /* refusals of a broken memory, each with the lowest address that is wrong; the first of the five that applies is given */
    WIK_BROKEN_WAITS = 31,
    WIK_BROKEN_RECORDS = 32,
    WIK_BROKEN_TABLES = 33,
    WIK_BROKEN_COUNTERS = 34,

    WIK_NO_ROOM = 35            /* settings: the lent buffer is too short */
};

/* The number of an answer, and its two values. */
static inline unsigned wik_number(uint64_t answer) { return (unsigned)(answer & 255); }
static inline unsigned wik_first(uint64_t answer) { return (unsigned)(answer >> 8 & 65535); }
static inline unsigned wik_second(uint64_t answer) { return (unsigned)(answer >> 24 & 65535); }

/* Whether the memory is broken, by the answer of any call, and then the address: a control page by its word 0, a semaphore by its own word
 * (docs/WELLFORMED.md). Word k of page p is p * 32 + k. */
static inline int wik_is_broken(uint64_t answer) { return wik_number(answer) >= WIK_BROKEN_PAGES && wik_number(answer) <= WIK_BROKEN_COUNTERS; }
static inline unsigned wik_broken_at(uint64_t answer) { return wik_first(answer); }

/* What an answer says, in a few words for a log or a screen; docs/OPERATORS.md has what to do about each. */
static inline const char *wik_text(uint64_t answer) {
    switch (wik_number(answer)) {
    case WIK_DONE: return "done";
    case WIK_WAITS: return "waits";
    case WIK_HANDED_OUT: return "handed out: an own code";
    case WIK_WRITTEN: return "written";
    case WIK_ABSENT_CODE: return "fault: absent code";
    case WIK_EXI_OF_EXI: return "fault: EXI of EXI";
    case WIK_CODE_EXISTS: return "fault: the code exists";
    case WIK_KEPT_CODE: return "fault: deleting code 0 or 1";
    case WIK_BAD_WAIT: return "fault: no such interrupt to wait for, or count 0";
    case WIK_NO_MATCH: return "fault: no such message in Q2";
    case WIK_NO_NAME: return "fault: no such processor";
    case WIK_NOT_STARTABLE: return "fault: the processor to start is not stopped, or also waits";
    case WIK_NAME_EXISTS: return "fault: the name is taken";
    case WIK_NOT_STOPPED: return "fault: the processor to delete is not stopped";
    case WIK_PROTECTED: return "fault: protected word";
    case WIK_BAD_ARGUMENT: return "fault: bad argument";
    case WIK_ABOVE_ITSELF: return "fault: priority above its own";
    case WIK_WRONG_LENGTH: return "refused: the length is not 8192";
    case WIK_IDLE: return "refused: nobody runs";
    case WIK_NATIVE: return "refused: the word at LR is not 224";
    case WIK_NO_INTERRUPT: return "refused: the interrupt is not 16-50";
    case WIK_WRONG_CLASS: return "refused: the class number is over 31, or not 0 below interrupt 48";
    case WIK_OUT_OF_RANGE: return "refused: a value is out of range";
    case WIK_WRONG_LIST: return "refused: the list of a burst is odd, or longer than 64 bytes";
    case WIK_BROKEN_LAYOUT: return "refused: the layout of the settings is broken";
    case WIK_TOO_NEW: return "refused: the settings are of a newer version";
    case WIK_BROKEN_PAGES: return "refused: a control page is used twice or not at all";
    case WIK_BROKEN_WAITS: return "refused: a wait queue or a semaphore does not fit";
    case WIK_BROKEN_RECORDS: return "refused: the record of a processor or of a message does not fit";
    case WIK_BROKEN_TABLES: return "refused: the table of codes or of errors does not fit";
    case WIK_BROKEN_COUNTERS: return "refused: a counter or the entry of who runs does not fit";
    case WIK_NO_ROOM: return "refused: the buffer is too short for the settings";
    default: return "no answer of this kernel";
    }
}

/* The fresh start, on any memory of 8,192 words: processor 1 runs at 2752, nineteen pages are free. line is the clock's line, 16-47; divider is 1-255.
 * Processor 1 has priority 1, and so has everybody that is created after it; other priorities come from settings only.
 * Answers WIK_DONE; 20; 26 where line or divider is out of range. */
uint64_t wik_fresh(uint8_t *memory, size_t length, uint16_t line, uint16_t divider);

/* The fresh start from a file of settings (docs/SETTINGS.md): that of wik_fresh with the file's clock line and divider, then its processors, each created
 * stopped, in order, as CRP does it, but with whatever priority of 1-15 the file gives; processor 1 runs at 2752. file are the file_length bytes in use;
 * they are only read, must lie outside of the memory that is lent, and file is no null pointer even where there are none.
 * Answers WIK_DONE; 20; 29 with wik_version; 28; 26 where a name stands twice or is 1, or a value is out of range. */
uint64_t wik_fresh_from_settings(uint8_t *memory, size_t length, const uint8_t *file, size_t file_length);

static inline unsigned wik_version(uint64_t answer) { return wik_first(answer); }

/* Writes a block of settings into a file that stands in a buffer: room is the buffer's length, used how many of its bytes are the file, 0 for a new one. The
 * block and a trailer go to the old trailer's place; all bytes before and behind stay. Buffer and block must not overlap, and neither is a null pointer.
 * Answers WIK_WRITTEN: the file then has wik_new_length(used, block_length) bytes; 35 where used is over the room; 29 with wik_version, 28 or 26, the
 * greater number of what refuses the file and what refuses the block; 35 where there is no room. */
uint64_t wik_write_settings(uint8_t *file, size_t room, size_t used, const uint8_t *block, size_t block_length);

static inline size_t wik_new_length(size_t used, size_t block_length) { return used == 0 ? block_length + 4 : used + block_length; }

/* One virtual instruction by the running processor.
 * Answers WIK_DONE, WIK_WAITS, WIK_HANDED_OUT or a fault; 20; 30-34; 22; 23. A fault changes nothing but the stopped bit, page 9 and who runs. */
uint64_t wik_instruction(uint8_t *memory, size_t length);

/* Delivers interrupt number, 16-50, with a class number, which is 0 but for 48-50, where it is 0-31.
 * Answers WIK_DONE; 20; 30-34; 24; 25. */
uint64_t wik_interrupt(uint8_t *memory, size_t length, uint16_t number, uint16_t class_number);

/* Delivers a burst from the line card in one call: count bytes of list, the number and the class number of each interrupt in turn, at most 32 pairs. They
 * are delivered in order, as by wik_interrupt one after the other, and the memory is judged once. No bytes are a burst too, and change nothing; even then
 * list is no null pointer. The list is only read, and must lie outside of the memory that is lent.
 * Answers WIK_DONE; 20; 30-34; 27 where count is odd or over 64; 24 or 25 of the first pair that is refused, with wik_bad_pair its place: then nothing
 * has been delivered. */
enum { WIK_BURST_BYTES = 64 };
uint64_t wik_burst(uint8_t *memory, size_t length, const uint8_t *list, size_t count);

static inline unsigned wik_bad_pair(uint64_t answer) { return wik_first(answer); }

/* The registers of the running processor, which is never stopped: bits 8-15 A, 16-23 S, 24 P, 25 Z, 26 CI, 27-39 LR, 40-43 W; all others are 0.
 * Answers WIK_DONE in bits 0-7; 20; 30-34; 22. Changes nothing. */
uint64_t wik_read_registers(const uint8_t *memory, size_t length);

static inline unsigned wik_a(uint64_t registers) { return (unsigned)(registers >> 8 & 255); }
static inline unsigned wik_s(uint64_t registers) { return (unsigned)(registers >> 16 & 255); }
static inline unsigned wik_p(uint64_t registers) { return (unsigned)(registers >> 24 & 1); }
static inline unsigned wik_z(uint64_t registers) { return (unsigned)(registers >> 25 & 1); }
static inline unsigned wik_ci(uint64_t registers) { return (unsigned)(registers >> 26 & 1); }
static inline unsigned wik_lr(uint64_t registers) { return (unsigned)(registers >> 27 & 8191); }
static inline unsigned wik_w(uint64_t registers) { return (unsigned)(registers >> 40 & 15); }

/* The running processor's registers become these: A and S 0-255, P, Z and CI 0-1, LR 0-8191, W 0-15.
 * Its stopped and waiting bits stay. Answers WIK_DONE; 20; 30-34; 22; 26 where a value is out of range. */
uint64_t wik_set_registers(uint8_t *memory, size_t length, uint16_t a, uint16_t s, uint16_t p, uint16_t z, uint16_t ci, uint16_t lr, uint16_t w);

/* The judge of well-formed memory. Answers WIK_DONE; 20; 30-34. Changes nothing. */
uint64_t wik_judge(const uint8_t *memory, size_t length);

#ifdef __cplusplus
}
#endif

#endif
