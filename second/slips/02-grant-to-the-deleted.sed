# file: deliver.c
# says: DEP leaves one that waits for a page in the page queue, so it is granted pages
s/    if (wait != 0)/    if (wait != 0 \&\& wait != PAGE_QUEUE)/
