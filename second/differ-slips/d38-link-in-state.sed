# file: differing.c
# says: word 0 of a processor is part of the state
s/    return bits(one) == bits(other)/    return one->m[at(one->page, LINK)] == other->m[at(other->page, LINK)] \&\& bits(one) == bits(other)/
