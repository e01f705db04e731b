# file: judge.c
# says: 31 is tried before 30
s/    for (unsigned number = REFUSE_USES; number <= REFUSE_RUNNING; number++) {/    for (unsigned n = REFUSE_USES; n <= REFUSE_RUNNING; n++) {\n        unsigned number = n == 30 ? 31 : n == 31 ? 30 : n;/
