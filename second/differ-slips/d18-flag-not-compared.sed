# file: differing.c
# says: flags are not compared
s/first\[at(one, FROM)\] == second\[at(other, FROM)\]/first[at(one, FROM)] \/ 16 == second[at(other, FROM)] \/ 16/
