# file: deliver.c
# says: DEP marks mail in Q2 only
/mark_mail(m, at(.*, Q1), name);/d
