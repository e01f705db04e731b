# file: differ.c
# says: of two files of a wrong size only the first is told
/printf("%s: refused %u\\n"/s/$/\
        return true;/
