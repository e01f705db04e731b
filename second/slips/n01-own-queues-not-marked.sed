# file: deliver.c
# says: DEP does not mark what is in its own queues
/^    mark_mail(m, at(page, Q[12]), name);/d
