# file: deliver.c
# says: DEP leaves the processor list and marks after the mail, so mail to itself becomes a notice
/queue_leave(m, PROCESSOR_LIST, LIST_LINK, page);/d
/^    mark_sent(m, page, name);/d
s/^    return_mail(m, at(page, Q1), name);/&\n    queue_leave(m, PROCESSOR_LIST, LIST_LINK, page);\n    mark_sent(m, page, name);/
