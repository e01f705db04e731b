# file: differ.c
# says: 20 is told after the words
/^    any = print_words(first, second);/d
s/^    if (print_sizes())/    any = print_words(first, second);\
&/
