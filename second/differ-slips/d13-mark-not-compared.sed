# file: differing.c
# says: marked mail is the same as unmarked
s/first\[at(one, LENGTH)\] == second\[at(other, LENGTH)\]/(first[at(one, LENGTH)] | MARKED) == (second[at(other, LENGTH)] | MARKED)/
