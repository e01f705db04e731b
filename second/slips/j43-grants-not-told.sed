# file: judge.c
# says: false grants are told only if nothing else of 30 is
/^static void grants_are_pages/,/^}/s/^{/{\n    if (told->lowest != NOWHERE) return;/
