# file: judge.c
# says: a false end of the page queue is not seen
/^static void wait_queues_end/,/^}/s/tell_false_end(told, &s->page_queue);/;/
