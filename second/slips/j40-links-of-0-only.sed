# file: survey.c
# says: a false end after a page is taken for an end
s/    if (w.count < LONGEST_WALK && m\[word\] != 0)/    if (w.count == 0 \&\& m[word] != 0)/
