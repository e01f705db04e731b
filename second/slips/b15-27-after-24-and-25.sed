# file: kernel.c
# says: 27 comes after 24 and 25
/^static struct answer fitness_of_list/,/^}/s/    if (\(list_length.*MOST_PAIRS\))/    if (test_pairs(list, list_length \/ 2).kind == ANSWER_DONE \&\& (\1))/
