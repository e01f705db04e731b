# file: judge.c
# says: word 26 of page 7 is in 33
/, word_26 }/s/REFUSE_RUNNING/REFUSE_TABLES/
