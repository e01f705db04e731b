# file: judge.c
# says: the judge refuses marked mail
s/is_marked(length) || //
