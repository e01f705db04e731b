# file: judge.c
# says: page 10's other words are told only if nothing else of 32 is
/^static void rest_of_page_10/,/^}/s/^{/{\n    if (told->lowest != NOWHERE) return;/
