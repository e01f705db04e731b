# file: judge.c
# says: page 9 may begin with 33
s/between(1, s->m\[FAULT_TABLE\], FAULT_TABLE_FULL)/between(1, s->m[FAULT_TABLE], FAULT_TABLE_FULL + 1)/
