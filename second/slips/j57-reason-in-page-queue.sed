# file: judge.c
# says: one that waits for a page may have a reason
/^static void reasons/,/^}/s/s->m\[at(s->page_queue.page\[i\], REASON)\] != 0/false/
