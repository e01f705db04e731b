# file: differing.c
# says: the same messages in another order are the same
s/^static bool same_mail(/static bool is_there(const uint8_t *first, unsigned one, const uint8_t *second, const struct queue *q)\
{\
    for (unsigned i = 0; i < q->count; i++)\
        if (same_message(first, one, second, q->page[i]))\
            return true;\
    return false;\
}\
\
&/
s/same_message(one->m, a.page\[i\], other->m, b.page\[i\])/is_there(one->m, a.page[i], other->m, \&b)/
