# file: judge.c
# says: 32 is tried before 31
s/    for (unsigned number = REFUSE_USES; number <= REFUSE_RUNNING; number++) {/    for (unsigned n = REFUSE_USES; n <= REFUSE_RUNNING; n++) {\n        unsigned number = n == 31 ? 32 : n == 32 ? 31 : n;/
