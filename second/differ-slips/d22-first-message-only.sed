# file: differing.c
# says: only the first message of a queue is compared
s/i < a.count; i++/i < a.count \&\& i < 1; i++/
