# file: judge.c
# says: 33 is tried before 32
s/    for (unsigned number = REFUSE_USES; number <= REFUSE_RUNNING; number++) {/    for (unsigned n = REFUSE_USES; n <= REFUSE_RUNNING; n++) {\n        unsigned number = n == 32 ? 33 : n == 33 ? 32 : n;/
