# file: differ.c
# says: of two broken files only the first is told
/printf("%s: refused %u at %u/s/$/\
        return true;/
