/*
 * Files of settings for the generator, good and damaged.  A bare one is a block alone, without a trailer.
 */
#ifndef FILES_H
#define FILES_H

#include "generate.h"
#include "settings.h"

enum { LONGEST_FILE = 320 };

struct file {
    uint8_t bytes[LONGEST_FILE];
    unsigned first, length;  /* what is lent: from the first on, up to the length */
    unsigned block;          /* where the newest block begins */
    uint32_t damaged;        /* a bit for each kind of byte that was damaged */
    bool bare;
};

/* Kinds of bytes: of a trailer, of a head, of an entry. */
enum { SPOT_HEAD = 4, SPOT_ENTRY = SPOT_HEAD + 17, SPOTS = SPOT_ENTRY + ENTRY_BYTES };

/* files.c */
void make_file(struct file *f);
void make_bare(struct file *f);
void make_empty(struct file *f);
void make_crew(struct file *f, unsigned divider);
struct verdict verdict_on(const struct file *f);
void damage(struct file *f);
void damage_to(struct file *f, unsigned number);  /* so that it is refused by that number */

/* filed.c: what settings reached */
unsigned long settings_done(unsigned version, unsigned entries);
unsigned long settings_written(unsigned version, unsigned entries);
unsigned long damaged_at(unsigned spot);
void reach_damage(const struct file *f);

#endif
