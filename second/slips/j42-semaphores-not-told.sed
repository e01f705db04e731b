# file: judge.c
# says: semaphores are told only if nothing else of 31 is
/^static void semaphores/,/^}/s/^{/{\n    unsigned others = told->lowest;\n/;/^static void semaphores/,/^}/s/^}/    if (others != NOWHERE) told->lowest = others;\n}/
