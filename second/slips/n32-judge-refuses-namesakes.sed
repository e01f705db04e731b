# file: judge.c
# says: the judge refuses marked mail of a name that somebody has
s/is_marked(length)/(is_marked(length) \&\& find_processor(m, from \/ 16) == 0)/
