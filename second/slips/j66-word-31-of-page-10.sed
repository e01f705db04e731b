# file: judge.c
# says: word 31 of page 10 may be anything
/^static void rest_of_page_10/,/^}/s/word < PAGE_WORDS/word < PAGE_WORDS - 1/
