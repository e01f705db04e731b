# file: judge.c
# says: the grant of one that waits for a page is told by its page
/^static void waiters_hold_no_grant/,/^}/s/tell_unless(told, GRANTS + name, /tell_unless(told, at(s->page_queue.page[i], LINK), /
