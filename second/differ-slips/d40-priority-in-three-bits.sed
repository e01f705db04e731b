# file: differing.c
# says: the highest bit of the priority is left out
s/priority_of(one->m, one->page) == priority_of(other->m, other->page)/priority_of(one->m, one->page) % 8 == priority_of(other->m, other->page) % 8/
