# file: differing.c
# says: a wait for a message is compared by its page
s/        return FOR_A_MESSAGE;/        return header;/
