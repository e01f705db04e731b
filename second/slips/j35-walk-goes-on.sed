# file: survey.c
# says: a walk goes on through a false number
s/    while (w.count < LONGEST_WALK && is_control_page(m\[word\])) {/    for (unsigned left = 64; left > 0 \&\& w.count < LONGEST_WALK \&\& m[word] != 0; left--) {\n        if (!is_control_page(m[word])) { if (w.false_end == 0) w.false_end = word; word = at(m[word], link); continue; }/;s/    if (w.count < LONGEST_WALK && m\[word\] != 0)/    if (w.false_end == 0 \&\& w.count < LONGEST_WALK \&\& m[word] != 0)/
