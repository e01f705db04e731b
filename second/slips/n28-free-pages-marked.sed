# file: deliver.c
# says: DEP marks pages that are free and held its mail once
s/^    mark_mail(m, at(page, Q2), name);/&\n    mark_mail(m, FREE_LIST, name);/
