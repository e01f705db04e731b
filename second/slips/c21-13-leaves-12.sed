# file: instruction.c
# says: fault 13 is entered in page 9 as 12
s/store(m, FAULT_TABLE + unused, r->name \* 16 + number);/store(m, FAULT_TABLE + unused, r->name * 16 + (number < 13 ? number : 12));/
