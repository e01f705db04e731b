# file: differ.c
# says: the second file is not judged
/^static bool print_broken/,/^}/s/i < DUMPS/i < SECOND/
