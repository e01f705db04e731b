# file: judge.c
# says: C3 may be 60
/^static void counters/,/^}/s/10, 60, 60/10, 60, 61/
