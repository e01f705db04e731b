# file: differing.c
# says: a wait for a message is the same as one for an interrupt
s/        return FOR_A_MESSAGE;/        return 1;/
s/    return (header - TABLES - 2) \/ 2;/    return 1;/
