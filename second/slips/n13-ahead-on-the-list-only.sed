# file: deliver.c
# says: DEP marks mail of those ahead of it on the list only
/^    queue_leave(m, PROCESSOR_LIST, LIST_LINK, page);/{
N
s/\(.*\)\n\(.*\)/\2\n\1/
}
s/i < list.count; i++/i < list.count \&\& list.page[i] != page; i++/
