# file: instruction.c
# says: EXI of an absent code with a protected address is 11
/^static struct answer run_pointed/,/^}/s/    if (code_kind(r->m, code) == KIND_ABSENT)/    if (code_kind(r->m, code) == KIND_ABSENT \&\& code != EXI \&\& is_protected(from)) return fault(r, FAULT_PROTECTED);\n&/
