# file: instruction.c
# says: CRP by EXI above its runner is 13 before W or the address is tested for its field
/^static unsigned exi_arguments/,/^}/s/^        if (m\[from\] > largest/        if (code == 11 \&\& *p == W_BITS \&\& g->field != 0 \&\& g->priority > priority_of(m, m[RUNNING_PAGE]))\n            return FAULT_ABOVE_ITSELF;\n&/
