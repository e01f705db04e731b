# file: judge.c
# says: a processor's semaphore is told by its page
/^static void semaphores/,/^}/s/    unsigned semaphore = at(s->processors.page\[i\], OWN_SEMAPHORE);/&\n        if (signed_byte(s->m[semaphore]) != -(int)s->own_wait[i].count) tell_page(told, s->processors.page[i]);/
