# file: judge.c
# says: a processor's semaphore is looked at only while it waits
s/== -(int)s->own_wait\[i\].count)/== -(int)s->own_wait[i].count || s->own_wait[i].count == 0)/
