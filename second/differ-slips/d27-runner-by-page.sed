# file: differing.c
# says: who runs is compared by the page
s/runs(one) == runs(other)/one->m[RUNNING_PAGE] == other->m[RUNNING_PAGE]/
