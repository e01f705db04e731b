# file: differ.c
# says: processors are told though the second file is broken
s/^    if (print_broken())/    if (print_broken() \&\& judge(first).number != 0)/
