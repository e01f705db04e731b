# file: differing.c
# says: Q1 and Q2 are compared as one list
s/^static bool same_mail(/static struct queue both(const struct bearer *b)\
{\
    struct queue q = queue_read(b->m, at(b->page, Q1), LINK), rest = queue_read(b->m, at(b->page, Q2), LINK);\
\
    for (unsigned i = 0; i < rest.count \&\& q.count < PAGES; i++)\
        q.page[q.count++] = rest.page[i];\
    return q;\
}\
\
&/
s/queue_read(one->m, at(one->page, header), LINK)/both(one)/
s/queue_read(other->m, at(other->page, header), LINK)/both(other)/
