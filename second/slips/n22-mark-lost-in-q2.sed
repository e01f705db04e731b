# file: operation.c
# says: WNM and TME take the mark away
s/^    queue_leave(r->m, at(r->page, Q1), LINK, message);/&\
    if (is_marked(r->m[at(message, LENGTH)]))\
        store(r->m, at(message, LENGTH), text_length(r->m, message));/
