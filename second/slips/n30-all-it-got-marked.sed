# file: deliver.c
# says: DEP marks all mail in its own queues, whoever sent it
s/^    mark_mail(m, at(page, Q1), name);/    for (unsigned other = 1; other <= HIGHEST_NAME; other++)\n        mark_mail(m, at(page, Q1), other);/
