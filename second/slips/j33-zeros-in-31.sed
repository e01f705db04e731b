# file: judge.c
# says: the zeros of word 12 are in 31
/, zeros_of_word_12 }/s/REFUSE_RECORDS/REFUSE_WAITS/
