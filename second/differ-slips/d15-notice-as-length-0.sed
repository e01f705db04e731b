# file: differing.c
# says: a notice is the same as mail of length 0
s/first\[at(one, LENGTH)\] == second\[at(other, LENGTH)\]/first[at(one, LENGTH)] % 128 == second[at(other, LENGTH)] % 128/
