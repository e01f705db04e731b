# file: judge.c
# says: the lowest of the first broken rule is told, not of the whole class
/^unsigned lowest_of/,/^}/s/if (rules\[i\].number == number)/if (rules[i].number == number \&\& told.lowest == NOWHERE)/
