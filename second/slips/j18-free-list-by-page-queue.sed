# file: judge.c
# says: free pages beside page waiters are told by 246
s/    tell_unless(told, FREE_LIST, s->page_queue.count == 0/    tell_unless(told, PAGE_QUEUE, s->page_queue.count == 0/
