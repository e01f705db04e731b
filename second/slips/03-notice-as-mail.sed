# file: deliver.c
# says: DEP returns a notice as if it were mail
s/bool is_mail = length != NOTICE && /bool is_mail = /
