# file: instruction.c
# says: EXI hands out the address before indexing
s/return hand_out(r, code, from);/return hand_out(r, code, exi->address);/
