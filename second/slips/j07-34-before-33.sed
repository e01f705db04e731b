# file: judge.c
# says: 34 is tried before 33
s/    for (unsigned number = REFUSE_USES; number <= REFUSE_RUNNING; number++) {/    for (unsigned n = REFUSE_USES; n <= REFUSE_RUNNING; n++) {\n        unsigned number = n == 33 ? 34 : n == 34 ? 33 : n;/
