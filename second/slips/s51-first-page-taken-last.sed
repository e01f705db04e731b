# file: settings.c
# says: the processors get the last free pages
s/^    unsigned page = take_page(m, 1);/    unsigned page = LAST_PAGE;\n\n    while (find_processor(m, name_of(m, page)) == page)\n        page--;\n    queue_leave(m, FREE_LIST, LINK, page);\n    store(m, FREE_SEMAPHORE, m[FREE_SEMAPHORE] - 1u);/
s/^    unsigned address = entry\[AT_HIGH\]/    const unsigned address = entry[AT_HIGH]/
