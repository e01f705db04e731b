# file: differing.c
# says: the second queue is read from its end
s/other->m, b.page\[i\]/other->m, b.page[b.count - 1 - i]/
