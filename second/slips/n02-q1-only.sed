# file: deliver.c
# says: DEP marks mail in Q1 only
/mark_mail(m, at(.*, Q2), name);/d
