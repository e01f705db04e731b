# file: instruction.c
# says: fault 13 is not entered in page 9
s/if (unused < FAULT_TABLE_FULL)/if (unused < FAULT_TABLE_FULL \&\& number != FAULT_ABOVE_ITSELF)/
