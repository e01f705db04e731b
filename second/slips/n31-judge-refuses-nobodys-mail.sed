# file: judge.c
# says: the judge refuses unmarked mail of a name that nobody has
s/length <= LONGEST_TEXT || is_marked/(length <= LONGEST_TEXT \&\& find_processor(m, from \/ 16) != 0) || is_marked/
