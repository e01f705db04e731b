# file: differ.c
# says: a longer file is taken by its first 8,192 bytes
s/ && !dumps\[i\].too_long//
