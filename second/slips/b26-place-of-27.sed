# file: kernel.c
# says: 27 tells a place
/^static struct answer fitness_of_list/,/^}/s/return refused(REFUSE_LIST);/return (struct answer){ .kind = ANSWER_REFUSED, .number = REFUSE_LIST, .place = MOST_PAIRS + 1 };/
