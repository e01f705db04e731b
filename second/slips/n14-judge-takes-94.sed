# file: judge.c
# says: the judge takes 94 for a length
s/is_marked(length)/is_marked(length) || length == MARKED + LONGEST_TEXT + 1/
