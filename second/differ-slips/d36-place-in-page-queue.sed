# file: differing.c
# says: the place in the page queue is compared
s/        return FOR_A_PAGE;/        return FOR_A_PAGE + (b->m[PAGE_QUEUE] == b->page ? 100u : 0u);/
