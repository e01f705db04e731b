# file: differ.c
# says: what is broken is told before the words
/^    any = print_words(first, second);/d
s/^    if (print_broken())/    bool broken = print_broken();\
\
    any = print_words(first, second);\
    if (broken)/
