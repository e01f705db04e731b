# file: judge.c
# says: the judge refuses fault 13 in page 9
s/between(1, entry % 16, FAULTS)/between(1, entry % 16, FAULTS - 1)/
