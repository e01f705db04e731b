# file: deliver.c
# says: DEP returns Q1 before Q2
/return_mail(m, at(page, Q2), name);/{
N
s/Q2\(.*\)Q1/Q1\1Q2/
}
