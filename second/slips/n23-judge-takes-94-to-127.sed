# file: judge.c
# says: the judge takes all of 64 to 127 for a length
s/is_marked(length)/(length >= MARKED \&\& length < NOTICE)/
