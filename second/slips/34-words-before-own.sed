# file: instruction.c
# says: word n+2 is tested before an own code
s/        return hand_out(&r, code, n + 1);/        return is_protected(n + 2) ? fault(\&r, FAULT_PROTECTED) : hand_out(\&r, code, n + 1);/
