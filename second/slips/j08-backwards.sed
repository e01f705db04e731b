# file: judge.c
# says: the classes are tried from 34 down
s/    for (unsigned number = REFUSE_USES; number <= REFUSE_RUNNING; number++) {/    for (unsigned number = REFUSE_RUNNING; number >= REFUSE_USES; number--) {/
