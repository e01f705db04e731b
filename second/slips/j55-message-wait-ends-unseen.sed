# file: judge.c
# says: a false end of a message wait is not seen
/^static void wait_queues_end/,/^}/s/tell_false_end(told, &s->own_wait\[i\]);/;/
