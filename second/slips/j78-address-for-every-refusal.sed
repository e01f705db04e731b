# file: script.c
# says: every refusal is printed with an address
s/answer->number >= REFUSE_USES && //
