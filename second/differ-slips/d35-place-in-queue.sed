# file: differing.c
# says: the place in an interrupt queue is compared
s/    return (header - TABLES - 2) \/ 2;/    struct queue q = queue_read(b->m, header, LINK);\
    unsigned place = 0;\
\
    while (place < q.count \&\& q.page[place] != b->page)\
        place++;\
    return (header - TABLES - 2) \/ 2 + 100 * place;/
