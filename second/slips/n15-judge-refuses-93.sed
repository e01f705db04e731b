# file: judge.c
# says: the judge refuses 93 for a length
s/is_marked(length)/(is_marked(length) \&\& length < MARKED + LONGEST_TEXT)/
