# file: differing.c
# says: the queue waited in is left out
s/^        && queue_waited_in(one) == queue_waited_in(other);/        \&\& true;/
