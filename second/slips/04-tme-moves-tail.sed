# file: operation.c
# says: TME moves the untested tail of Q1 too
s/for (unsigned i = 0; found == 0 && i < tested.count; i++) {/for (unsigned i = 0, go = found == 0; go \&\& i < tested.count; i++) {/
