# file: processor.c
# says: a new processor's page keeps its words 13-31
/^void set_up_processor/,/^}/s/word < PAGE_WORDS/word < SAVED/
