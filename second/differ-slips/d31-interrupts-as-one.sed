# file: differing.c
# says: which interrupt is waited for is left out
s/    return (header - TABLES - 2) \/ 2;/    return 1;/
