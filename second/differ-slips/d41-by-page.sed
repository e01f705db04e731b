# file: differing.c
# says: what stands in the same page is taken for the same processor
s/    if (c.where == IN_BOTH) {/    other.page = one.page;\
&/
