# file: differ.c
# says: the size of the second file is not looked at
/^static bool print_sizes/,/^}/s/i < DUMPS/i < SECOND/
