# file: judge.c
# says: the judge lets one wait for a message that is in its Q1
s/if (reason % 16 > 7 || any_match(.*))$/if (reason % 16 > 7)/
