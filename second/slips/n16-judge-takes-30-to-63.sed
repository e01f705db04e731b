# file: judge.c
# says: the judge takes 30 to 63 for a length
s/length <= LONGEST_TEXT || is_marked/length < MARKED || is_marked/
