# file: judge.c
# says: a false end of an interrupt's queue is told by the semaphore
/^static void wait_queues_end/,/^}/s/        tell_false_end(told, &s->interrupt\[k\]);/        if (s->interrupt[k].false_end != 0) tell(told, interrupt_header(k) - 1);/
