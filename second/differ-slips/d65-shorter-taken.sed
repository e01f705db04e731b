# file: differ.c
# says: a shorter file is taken with zeros behind it
s/dumps\[i\].used == WORDS && !dumps/dumps[i].used <= WORDS \&\& !dumps/
