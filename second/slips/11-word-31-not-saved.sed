# file: processor.c
# says: word 31 of page 0 is not saved
/^static void save_page_0/,/^}/s/word < PAGE_WORDS/word < PAGE_WORDS - 1/
