# file: differing.c
# says: marked mail is the same as a notice
s/first\[at(one, LENGTH)\] == second\[at(other, LENGTH)\]/(is_marked(first[at(one, LENGTH)]) ? 128 : first[at(one, LENGTH)]) == (is_marked(second[at(other, LENGTH)]) ? 128 : second[at(other, LENGTH)])/
