# file: deliver.c
# says: DEP marks after its queues are emptied
/^    mark_sent(m, page, name);/d
s/^    return_mail(m, at(page, Q1), name);/&\n    mark_sent(m, page, name);/
