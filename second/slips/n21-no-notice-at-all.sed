# file: deliver.c
# says: DEP gives unmarked mail of one that exists back, without a notice
s/bool is_mail = .*;/bool is_mail = false;/
