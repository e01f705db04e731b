# file: deliver.c
# says: DEP marks mail of those behind it on the list only
/^    queue_leave(m, PROCESSOR_LIST, LIST_LINK, page);/{
N
s/\(.*\)\n\(.*\)/\2\n\1/
}
s/^    for (unsigned i = 0; i < list.count; i++) {/    unsigned first = 0;\
\
    while (first < list.count \&\& list.page[first] != page)\
        first++;\
    for (unsigned i = first; i < list.count; i++) {/
