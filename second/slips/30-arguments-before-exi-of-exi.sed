# file: instruction.c
# says: EXI of EXI with a protected address is 11
s/    if (code == EXI)/    if (code == EXI \&\& is_protected(from)) return fault(r, FAULT_PROTECTED);\n&/
