# file: differ.c
# says: the words are left out if a file is broken
s/^    any = print_words(first, second);/    any = judge(first).number == 0 \&\& judge(second).number == 0 \&\& print_words(first, second);/
