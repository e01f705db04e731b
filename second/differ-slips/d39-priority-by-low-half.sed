# file: differing.c
# says: the priority is taken from the low half of word 7
s/priority_of(one->m, one->page) == priority_of(other->m, other->page)/name_of(one->m, one->page) == name_of(other->m, other->page)/
