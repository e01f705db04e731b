# file: differing.c
# says: Q1 is compared for Q2
s/same_mail(&one, &other, Q2)/same_mail(\&one, \&other, Q1)/
