# file: differing.c
# says: a wait for a page is the same as one for a message
s/        return FOR_A_PAGE;/        return FOR_A_MESSAGE;/
