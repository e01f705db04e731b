# file: instruction.c
# says: word n+2 is tested before an absent code
s/    code = m\[n + 1\] \/ 16u;/&\n    if (code_kind(m, code) == KIND_ABSENT \&\& is_protected(n + 2)) return fault(\&r, FAULT_PROTECTED);/
