# file: differing.c
# says: word 2 is not compared, but its text
/first\[at(one, LENGTH)\] == second\[at(other, LENGTH)\]/d
