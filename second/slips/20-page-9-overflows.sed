# file: instruction.c
# says: the 32nd fault is entered too
s/if (unused < FAULT_TABLE_FULL) {/if (unused <= FAULT_TABLE_FULL) {/
