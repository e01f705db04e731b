# file: differing.c
# says: messages are compared by their page numbers too
s/    return first\[at(one, FROM)\] == second/    return one == other \&\& first[at(one, FROM)] == second/
