# file: judge.c
# says: a message may have sender 0
s/if (from \/ 16 == 0 || /if (/
