# file: differ.c
# says: `same` is not printed
/puts("same");/s/.*/        fputs("", stdout);/
