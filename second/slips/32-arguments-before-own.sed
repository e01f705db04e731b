# file: instruction.c
# says: EXI of an own code tests the address
s/        return hand_out(r, code, from);/        return is_protected(from) ? fault(r, FAULT_PROTECTED) : hand_out(r, code, from);/
