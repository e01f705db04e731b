# file: judge.c
# says: the judge takes 192, a marked notice
s/length == NOTICE;/length == NOTICE || length == NOTICE + MARKED;/
