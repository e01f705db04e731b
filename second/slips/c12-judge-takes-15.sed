# file: judge.c
# says: the judge takes fault 15 in page 9
s/between(1, entry % 16, FAULTS)/(between(1, entry % 16, FAULTS) || entry % 16 == 15)/
